use der_c::{Bits, Error, ErrorKind, Name, Request, Tag, Writer};

/// A level of a name: for each attribute its type in dotted notation and its value, a UTF8String.
type Level<'a> = &'a [(&'a str, &'a str)];

fn write_level(writer: &mut Writer, level: Level) -> Result<(), Error> {
    writer.inside(Tag::SET, |attributes| {
        for (identifier, text) in level {
            attributes.inside(Tag::SEQUENCE, |attribute| {
                attribute.oid(Tag::OBJECT_IDENTIFIER, identifier)?;
                attribute.text(Tag::UTF8_STRING, Tag::UTF8_STRING, text.as_bytes())
            })?;
        }
        Ok(())
    })
}

/// The algorithm Ed25519 (RFC 8410, 3).
fn write_algorithm(writer: &mut Writer) -> Result<(), Error> {
    writer.inside(Tag::SEQUENCE, |algorithm| {
        algorithm.oid(Tag::OBJECT_IDENTIFIER, "1.3.101.112")
    })
}

fn write_zeros(writer: &mut Writer) -> Result<(), Error> {
    let octets = &[0; 32];
    writer.bit_string(Tag::BIT_STRING, Bits { octets, unused: 0 })
}

/// A request for this name, with a key and a signature of zeros (RFC 2986, 4).
fn request(levels: &[Level]) -> Vec<u8> {
    let mut space = [0; 512];
    let mut writer = Writer::new(&mut space);
    let written = writer.inside(Tag::SEQUENCE, |request| {
        request.inside(Tag::SEQUENCE, |part| {
            part.uint64(Tag::INTEGER, 0)?;
            part.inside(Tag::SEQUENCE, |name| {
                levels.iter().try_for_each(|it| write_level(name, it))
            })?;
            part.inside(Tag::SEQUENCE, |key| {
                write_algorithm(key)?;
                write_zeros(key)
            })?;
            part.element(Tag::context(0, true), &[])
        })?;
        write_algorithm(request)?;
        write_zeros(request)
    });
    written.unwrap();
    writer.finish().unwrap().to_vec()
}

const LEVELS: [Level; 3] = [
    &[("2.5.4.6", "DE")],
    &[("2.5.4.10", "A,B"), ("2.5.4.11", " x ")],
    &[("2.5.4.3", "#ä\u{7}=")],
];

#[test]
fn a_name_is_printed_as_rfc_4514_says() {
    let octets = request(&LEVELS);
    let name = Request::from_der(&octets).unwrap().subject;
    assert_eq!(name.to_string(), r"CN=\#ä\07\=,O=A\,B+OU=\ x\ ,C=DE");
    assert_eq!(Request::from_der(&request(&[])).unwrap().subject.to_string(), "");
    let wanted = r"CN=\#ä\07=,O=A\,B+OU=\ x\ ,C=DE";
    let mut space = [0; 64];
    assert_eq!(name.to_text(&mut space), Ok(wanted));
    assert_eq!(name.to_text(&mut space[..wanted.len() + 1]), Ok(wanted));
    let error = name.to_text(&mut space[..wanted.len()]).unwrap_err();
    assert_eq!(error.kind(), ErrorKind::Overlength);
}

#[test]
fn the_attributes_of_a_name_are_in_order() {
    let octets = request(&LEVELS);
    let name = Request::from_der(&octets).unwrap().subject;
    let attributes = name.attributes().map(|it| {
        let it = it.unwrap();
        (it.identifier.to_string(), it.text().unwrap().to_string())
    });
    let wanted = LEVELS.concat();
    let wanted = wanted
        .iter()
        .map(|(identifier, text)| (identifier.to_string(), text.to_string()));
    assert!(attributes.eq(wanted));
    assert!(name.into_iter().eq(name.attributes()));
}

/// RFC 4514, 2.4: any character may be written as the octets of its UTF-8, each as a backslash and two digits.
#[test]
fn hidden_characters_are_escaped() {
    for (character, wanted) in [
        ('\u{7}', r"\07"),
        ('\u{85}', r"\C2\85"),
        ('\u{AD}', r"\C2\AD"),
        ('\u{34F}', r"\CD\8F"),
        ('\u{2028}', r"\E2\80\A8"),
        ('\u{202E}', r"\E2\80\AE"),
        ('\u{2800}', r"\E2\A0\80"),
        ('\u{E0041}', r"\F3\A0\81\81"),
    ] {
        let octets = request(&[&[("2.5.4.3", &format!("a{character}b"))]]);
        let name = Request::from_der(&octets).unwrap().subject;
        let wanted = format!("CN=a{wanted}b");
        assert_eq!(
            (name.to_string(), name.to_text(&mut [0; 64])),
            (wanted.clone(), Ok(&*wanted))
        );
        assert_eq!(format!("{name:?}"), format!("Name({wanted})"));
        assert!(der_c::is_hidden(character));
    }
}

/// `Display` writes each character as the proved call does, but for `=`, which it escapes.
#[test]
fn both_texts_escape_the_same_characters() {
    for character in (0..=u32::from(u16::MAX)).filter_map(char::from_u32) {
        let octets = request(&[&[("2.5.4.3", &format!("a{character}b"))]]);
        let name = Request::from_der(&octets).unwrap().subject;
        let mut space = [0; 64];
        let text = name.to_text(&mut space).unwrap();
        let wanted = if character == '=' { r"CN=a\=b" } else { text };
        assert_eq!(name.to_string(), wanted, "U+{:04X}", u32::from(character));
        assert!(!text.chars().any(der_c::is_hidden));
    }
}

/// The example of RFC 4514, 4 with the encoding of a value.
#[test]
fn a_value_that_is_no_string_is_printed_as_its_encoding() {
    let octets = [
        0x30, 0x12, 0x31, 0x10, 0x30, 0x0E, 0x06, 0x08, 0x2B, 0x06, 0x01, 0x04, 0x01, 0x8B, 0x3A, 0x00, 0x04, 0x02,
        0x48, 0x69,
    ];
    let name = Name::from_der(&octets).unwrap();
    assert_eq!(name.to_string(), "1.3.6.1.4.1.1466.0=#04024869");
    let mut space = [0; 64];
    assert_eq!(name.to_text(&mut space), Ok("1.3.6.1.4.1.1466.0=#04024869"));
}

/// A level is a SET OF (X.690 11.6). A name alone is refused where the proved call refuses it in a request.
#[test]
fn a_level_out_of_order_is_refused() {
    let levels: [Level; 2] = [&[("2.5.4.6", "DE")], &[("2.5.4.11", "x"), ("2.5.4.10", "y")]];
    let octets = request(&levels);
    let mut space = [0; 64];
    let mut writer = Writer::new(&mut space);
    let written = writer.inside(Tag::SEQUENCE, |name| {
        levels.iter().try_for_each(|it| write_level(name, it))
    });
    written.unwrap();
    let name = writer.finish().unwrap();
    let start = octets.windows(name.len()).position(|it| it == name).unwrap() as u32;
    let (alone, inside) = (
        Name::from_der(name).unwrap_err(),
        Request::from_der(&octets).unwrap_err(),
    );
    assert_eq!(
        (alone.kind(), inside.kind()),
        (ErrorKind::SetOrdering, ErrorKind::SetOrdering)
    );
    assert_eq!(alone.position().map(|it| it + start), inside.position());
}
