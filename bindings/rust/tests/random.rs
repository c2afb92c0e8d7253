#![cfg(feature = "alloc")]
//! Random and changed inputs through every call that reads: none panics, and what borrows from the input lies
//! in it. The numbers are those of a fixed generator. Run it with
//! `cargo test --release --test random -- --ignored`; RANDOM_INPUTS is how many inputs there are.
use der_c::{
    Any, Certificate, Element, Error, Extensions, GeneralName, GeneralNames, Name, Node, ObjectIdentifier, Oid,
    PrivateKey, PublicKey, Reader, Request, RevocationList, Tag, Time, compare, pem,
};

/// The generator xorshift64*.
struct Numbers(u64);

impl Numbers {
    fn next(&mut self) -> u64 {
        self.0 ^= self.0 >> 12;
        self.0 ^= self.0 << 25;
        self.0 ^= self.0 >> 27;
        self.0.wrapping_mul(0x2545_F491_4F6C_DD1D) >> 16
    }

    /// A number below another one.
    fn below(&mut self, end: usize) -> usize {
        (self.next() % end.max(1) as u64) as usize
    }
}

/// The octets of an input, which parts of it have to lie in.
struct Input<'a>(&'a [u8]);

impl<'a> Input<'a> {
    fn has(&self, part: &[u8]) {
        let (whole, part) = (self.0.as_ptr_range(), part.as_ptr_range());
        let is_inside = whole.start <= part.start && part.end <= whole.end;
        assert!(is_inside || part.is_empty(), "{part:?} is not in {whole:?}");
    }

    fn has_any(&self, any: &Any<'a>) {
        self.has(any.contents);
        let _printed = format!("{any:?}");
    }

    fn has_oid(&self, oid: Oid<'a>) {
        self.has(oid.contents());
        if let Ok(owned) = oid.to_string().parse::<ObjectIdentifier>() {
            assert_eq!(owned, oid);
        }
        let _arcs = oid.arcs(&mut [0; 8]);
    }

    fn see_name(&self, name: Name<'a>) {
        for attribute in name {
            let Ok(attribute) = attribute else { break };
            self.has_oid(attribute.identifier);
            self.has_any(&attribute.value);
            if let Some(text) = attribute.text() {
                self.has(text.octets());
                assert_eq!(text.chars().collect::<String>(), text.to_string());
            }
        }
        let printed = name.to_string();
        let mut space = vec![0; 8 * printed.len() + 64];
        assert_eq!(name.to_text(&mut space).map(|it| it.is_empty()), Ok(printed.is_empty()));
    }

    fn see_general_names(&self, names: GeneralNames<'a>) {
        for name in names {
            let _name = name.map(|it| self.see_general_name(&it));
        }
        let _printed = format!("{names:?}");
    }

    fn see_extensions(&self, extensions: Extensions<'a>) {
        for extension in &extensions {
            let Ok(extension) = extension else { break };
            self.has_oid(extension.identifier);
            self.has(extension.value);
        }
        let _usage = (extensions.key_usage(), extensions.key_usage_lenient());
        let _constraints = (extensions.basic_constraints(), extensions.basic_constraints_lenient());
        if let Ok(Some(names)) = extensions.subject_alternative_name() {
            self.see_general_names(names);
        }
        self.see_other_extensions(extensions);
        let _printed = format!("{extensions:?}");
    }

    fn see_general_name(&self, name: &GeneralName<'a>) {
        match name {
            GeneralName::Directory(name) => self.see_name(*name),
            GeneralName::Dns(text) | GeneralName::Mail(text) | GeneralName::Uri(text) => self.has(text.as_bytes()),
            GeneralName::Ip(octets) => self.has(octets),
            GeneralName::Registered(oid) => self.has_oid(*oid),
            _ => (),
        }
    }

    fn see_other_extensions(&self, extensions: Extensions<'a>) {
        let _identifier = extensions.subject_key_identifier().map(|it| it.map(|it| self.has(it)));
        if let Ok(Some(key)) = extensions.authority_key_identifier() {
            let _printed = format!("{key:?}");
        }
        for purpose in extensions.extended_key_usage().ok().flatten().into_iter().flatten() {
            let _oid = purpose.map(|it| self.has_oid(it));
        }
        for access in extensions
            .authority_information_access()
            .ok()
            .flatten()
            .into_iter()
            .flatten()
        {
            let _access = access.map(|it| {
                self.has_oid(it.method);
                self.see_general_name(&it.location);
            });
        }
        for point in extensions.distribution_points().ok().flatten().into_iter().flatten() {
            let Ok(point) = point else { break };
            for names in [point.full_name, point.list_issuer].into_iter().flatten() {
                self.see_general_names(names);
            }
        }
    }

    fn see_key(&self, key: PublicKey<'a>) {
        self.has(key.whole);
        self.has(key.key.octets);
        self.has_oid(key.algorithm.identifier);
    }

    /// The structures that the whole input may be.
    fn see_structures(&self) {
        let octets = self.0;
        if let Ok(certificate) = Certificate::from_der(octets) {
            self.has(certificate.signed_part());
            self.has(certificate.serial_number());
            self.see_name(certificate.issuer());
            self.see_name(certificate.subject());
            self.see_key(certificate.public_key());
            self.see_extensions(certificate.extensions());
            assert!(Time::from_unix_seconds(certificate.not_after()).is_some());
            let _printed = format!("{certificate:?}");
        }
        if let Ok(request) = Request::from_der(octets) {
            self.see_name(request.subject);
            self.see_key(request.public_key);
            self.has(request.attributes);
            if let Ok(Some(extensions)) = request.extensions() {
                self.see_extensions(extensions);
            }
            let _printed = format!("{request:?}");
        }
        if let Ok(list) = RevocationList::from_der(octets) {
            self.see_name(list.issuer);
            for entry in &list.entries {
                let Ok(entry) = entry else { break };
                self.has(entry.serial_number);
                self.see_extensions(entry.extensions);
            }
            self.see_extensions(list.extensions);
        }
        if let Ok(key) = PrivateKey::from_der(octets) {
            self.has(key.key);
        }
        let _parts = PublicKey::from_der(octets).map(|it| self.see_key(it));
        let _parts = Name::from_der(octets).map(|it| self.see_name(it));
        let _parts = Extensions::from_der(octets).map(|it| self.see_extensions(it));
        let _parts = GeneralNames::from_der(octets).map(|it| self.see_general_names(it));
    }

    /// Each value that the next element may be.
    fn see_values(&self, reader: Reader<'a>, tag: Tag) {
        let at = || reader;
        let _numbers = (at().boolean(tag), at().uint64(tag), at().int64(tag), at().null(tag));
        let _integer = at().integer(tag).map(|it| self.has(it));
        let _bits = at().bit_string(tag).map(|it| self.has(it.octets));
        let _oid = at().oid(tag).map(|it| self.has_oid(it));
        for string in [Tag::UTF8_STRING, Tag::IA5_STRING, Tag::BMP_STRING, Tag::TELETEX_STRING] {
            if let Ok(text) = at().text(tag, string) {
                self.has(text.octets());
                assert_eq!(text.chars().count(), text.to_string().chars().count());
            }
        }
        for kind in [Tag::UTC_TIME, Tag::GENERALIZED_TIME] {
            if let Ok((time, seconds)) = at().time(tag, kind) {
                assert_eq!(time.unix_seconds(), Ok(seconds));
                assert_eq!(time.to_string().parse(), Ok(time));
            }
        }
        let _optional = (
            at().optional(tag),
            at().expect(tag),
            at().enter(tag),
            at().header(),
            at().scan(),
        );
        assert_eq!(at().peek(), Ok(tag));
        assert!(at().next_is(tag));
    }

    /// All elements, and those inside.
    fn see_elements(&self, reader: Reader<'a>, depth: usize) {
        let mut ahead = reader;
        for element in reader {
            let before = ahead;
            let Ok(element) = element else { break };
            self.has(element.contents());
            self.see_values(before, element.tag());
            assert!(ahead.read().is_ok());
            let octets = ahead.octets_of(&element);
            self.has(octets.unwrap());
            match ahead.open(&element) {
                Ok(inside) if depth < 40 => self.see_elements(inside, depth + 1),
                _ => (),
            }
        }
    }

    fn see(&self) {
        self.see_structures();
        for reader in [Reader::der(self.0), Reader::ber(self.0)].into_iter().flatten() {
            self.see_elements(reader, 0);
            let _count = reader.tree(&mut [Node::default(); 16]);
            let read = |mut it: Reader<'a>| -> Result<Element<'a>, Error> { it.read() };
            if let Ok(first) = read(reader) {
                let _order = compare(reader.clone().octets_of(&first).unwrap_or_default(), self.0);
            }
        }
        let mut space = vec![0; self.0.len()];
        let mut blocks = pem::blocks(self.0);
        while let Some(block) = blocks.read(&mut space) {
            let _label = block.map(|it| self.has(it.label.as_bytes()));
        }
        if let Some(octets) = pem::decode_base64(self.0, &mut space) {
            let mut text = vec![0; pem::base64_length(octets.len())];
            let encoded = pem::encode_base64(octets, &mut text).unwrap();
            let visible = self.0.iter().filter(|it| !matches!(it, 9..=13 | b' '));
            assert!(encoded.bytes().eq(visible.copied()));
        }
        if let Ok(text) = core::str::from_utf8(self.0) {
            let _parsed = (text.parse::<ObjectIdentifier>(), text.parse::<Time>());
        }
    }
}

/// Octets, or the front of one of the seeds, or one of them with some octets changed.
fn input(numbers: &mut Numbers, seeds: &[Vec<u8>]) -> Vec<u8> {
    let seed = &seeds[numbers.below(seeds.len())];
    match numbers.below(4) {
        0 => (0..numbers.below(64)).map(|_| numbers.next() as u8).collect(),
        1 => seed[..numbers.below(seed.len() + 1)].to_vec(),
        _ => {
            let mut octets = seed.clone();
            for _ in 0..=numbers.below(4) {
                let at = numbers.below(octets.len());
                match numbers.below(3) {
                    0 => octets[at] = numbers.next() as u8,
                    1 => octets[at] ^= 1 << numbers.below(8),
                    _ => octets[at] = octets[at].wrapping_add(1),
                }
            }
            octets
        }
    }
}

/// A certificate with many extensions (see `web.cnf`), a request (see DER_C_REQUEST in `parts.rs`) and its key, a time, an
/// OBJECT IDENTIFIER, a string in segments, and a PEM text.
fn seeds() -> Vec<Vec<u8>> {
    let mut seeds = vec![
        include_bytes!("web.der").to_vec(),
        b"2026-11-26T23:05:00Z".to_vec(),
        b"1.2.840.113549".to_vec(),
        b"\x18\x0f20261126230500Z".to_vec(),
        b"\x24\x80\x04\x01a\x24\x80\x04\x00\x00\x00\x00\x00".to_vec(),
    ];
    if let Some(path) = std::env::var_os("DER_C_REQUEST") {
        let octets = std::fs::read(path).unwrap();
        let request = Request::from_der(&octets).unwrap();
        seeds.push(request.public_key.whole.to_vec());
        seeds.push(pem::to_string("CERTIFICATE REQUEST", &octets).unwrap().into_bytes());
        seeds.push(octets);
    }
    seeds
}

#[test]
#[ignore = "it takes as long as RANDOM_INPUTS says"]
fn no_input_panics() {
    let count = std::env::var("RANDOM_INPUTS").map_or(100_000, |it| it.parse().unwrap());
    let (mut numbers, seeds) = (Numbers(0x1234_5678_9ABC_DEF1), seeds());
    for seed in &seeds {
        Input(seed).see();
    }
    for _ in 0..count {
        Input(&input(&mut numbers, &seeds)).see();
    }
}
