//! Names, extensions and general names from octets, requests with extensions, counters and times.
use der_c::{
    Certificate, Counter, Error, ErrorKind, Extensions, GeneralName, GeneralNames, Name, Reader, Request, Tag, Time,
    Writer,
};
use std::time::{Duration, Instant};

/// A name of one level for each text: `CN=text`.
fn name_of(texts: &[&str]) -> Vec<u8> {
    let mut octets = vec![0; 64 + 32 * texts.len()];
    let mut writer = Writer::new(&mut octets);
    writer
        .inside(Tag::SEQUENCE, |name| {
            texts.iter().try_for_each(|text| {
                name.inside(Tag::SET, |level| {
                    level.inside(Tag::SEQUENCE, |attribute| {
                        attribute.oid(Tag::OBJECT_IDENTIFIER, "2.5.4.3")?;
                        attribute.text(Tag::UTF8_STRING, Tag::UTF8_STRING, text.as_bytes())
                    })
                })
            })
        })
        .unwrap();
    writer.finish().unwrap().to_vec()
}

#[test]
fn levels_are_printed_in_reverse() {
    for count in [0, 1, 2, 31, 32, 33, 63, 64, 65, 1000, 1025] {
        let texts: Vec<String> = (0..count).map(|it: usize| it.to_string()).collect();
        let octets = name_of(&texts.iter().map(String::as_str).collect::<Vec<_>>());
        let wanted: Vec<String> = texts.iter().rev().map(|it| format!("CN={it}")).collect();
        assert_eq!(Name::from_der(&octets).unwrap().to_string(), wanted.join(","));
    }
}

/// 32 KiB of empty levels took 14 seconds.
#[test]
fn many_levels_are_printed_soon() {
    let mut octets = vec![0x30, 0x82, 0x80, 0x00];
    octets.extend([0x31, 0].repeat(1 << 14));
    let name = Name::from_der(&octets).unwrap();
    let begun = Instant::now();
    assert_eq!(name.to_string(), ",".repeat((1 << 14) - 1));
    assert!(begun.elapsed() < Duration::from_secs(2));
}

#[test]
fn names_are_whole() {
    let octets = name_of(&["a", "b"]);
    let error = Name::from_der(&octets[..octets.len() - 1]).unwrap_err();
    assert!(matches!(error.kind(), ErrorKind::Incomplete { expected, .. } if expected as usize == octets.len()));
    let longer = [&octets[..], &[5, 0]].concat();
    assert!(matches!(
        Name::from_der(&longer).unwrap_err().kind(),
        ErrorKind::TrailingData { remaining: 2, .. }
    ));
    assert!(matches!(
        Name::from_der(&[0x30, 2, 5, 0]).unwrap_err().kind(),
        ErrorKind::TagUnexpected { .. }
    ));
    assert!(Name::from_der(&[0x30, 4, 0x31, 2, 5, 0]).is_err());
}

#[test]
fn general_names_are_read_from_octets() {
    let octets = [0x30, 5, 0x82, 3, b'a', b'.', b'b'];
    let names: Vec<_> = GeneralNames::from_der(&octets).unwrap().into_iter().collect();
    assert_eq!(names, [Ok(GeneralName::Dns("a.b"))]);
    assert!(GeneralNames::from_der(&[0x30, 2, 0x8F, 0]).is_err());
}

/// An extension that is critical, with its value in hexadecimal.
const CONSTRAINTS: [u8; 16] = [0x30, 14, 6, 3, 0x55, 0x1D, 0x13, 1, 1, 0xFF, 4, 4, 0x30, 2, 5, 0];

#[test]
fn extensions_are_read_from_octets() {
    let octets = [&[0x30, 16], &CONSTRAINTS[..]].concat();
    let extensions = Extensions::from_der(&octets).unwrap();
    let extension = extensions.into_iter().next().unwrap().unwrap();
    assert!(extension.critical && extension.identifier == *"2.5.29.19");
    assert!(Extensions::from_der(&octets[2..]).is_err());
}

/// The extensions of a certificate of openssl; `extensions.c` has the commands that made it.
fn web() -> Extensions<'static> {
    Certificate::from_der(include_bytes!("web.der")).unwrap().extensions()
}

/// `openssl x509 -ext extendedKeyUsage` prints `TLS Web Server Authentication, TLS Web Client Authentication, Microsoft
/// Smartcard Login`, which is critical.
#[test]
fn purposes_are_found() {
    let purposes = web().extended_key_usage().unwrap().unwrap();
    let texts: Vec<String> = purposes.into_iter().map(|it| it.unwrap().to_string()).collect();
    assert_eq!(
        texts,
        ["1.3.6.1.5.5.7.3.1", "1.3.6.1.5.5.7.3.2", "1.3.6.1.4.1.311.20.2.2"]
    );
    assert!(purposes.critical);
    let octets = [&[0x30, 16], &CONSTRAINTS[..]].concat();
    assert!(
        Extensions::from_der(&octets)
            .unwrap()
            .extended_key_usage()
            .unwrap()
            .is_none()
    );
}

/// `openssl x509 -ext subjectKeyIdentifier,authorityKeyIdentifier` prints `7C:51:..:42`, `keyid:3F:3D:..:7F`,
/// `DirName:/O=Authority` and `serial:12:34`.
#[test]
fn keys_are_identified() {
    let subject = web().subject_key_identifier().unwrap().unwrap();
    assert!(subject.len() == 20 && subject.starts_with(&[0x7C, 0x51]) && subject.ends_with(&[0x42]));
    let key = web().authority_key_identifier().unwrap().unwrap();
    let identifier = key.key_identifier.unwrap();
    assert!(identifier.len() == 20 && identifier.starts_with(&[0x3F, 0x3D]) && identifier.ends_with(&[0x7F]));
    assert_eq!(key.serial_number, Some(&[0x12, 0x34][..]));
    let names: Vec<_> = key.issuer.unwrap().into_iter().map(Result::unwrap).collect();
    assert!(matches!(names[..], [GeneralName::Directory(name)] if name.to_string() == "O=Authority"));
    assert!(!key.critical);
    let octets = [&[0x30, 16], &CONSTRAINTS[..]].concat();
    let others = Extensions::from_der(&octets).unwrap();
    assert!(others.subject_key_identifier().unwrap().is_none());
    assert!(others.authority_key_identifier().unwrap().is_none());
}

/// `openssl x509 -ext authorityInfoAccess` prints `OCSP - URI:http://ocsp.example.org/`, `CA Issuers -
/// URI:http://example.org/ca.crt` and `CA Issuers - DNS:example.org`.
#[test]
fn information_is_accessed() {
    let descriptions = web().authority_information_access().unwrap().unwrap();
    let texts: Vec<_> = descriptions
        .into_iter()
        .map(Result::unwrap)
        .map(|it| (it.method.to_string(), it.location))
        .collect();
    let wanted = [
        ("1.3.6.1.5.5.7.48.1", GeneralName::Uri("http://ocsp.example.org/")),
        ("1.3.6.1.5.5.7.48.2", GeneralName::Uri("http://example.org/ca.crt")),
        ("1.3.6.1.5.5.7.48.2", GeneralName::Dns("example.org")),
    ];
    assert_eq!(texts, wanted.map(|(method, location)| (method.to_string(), location)));
    assert!(!descriptions.critical);
}

/// `openssl x509 -ext crlDistributionPoints` prints `Full Name: URI:http://example.org/a.crl URI:ldap://example.org/b`;
/// `Relative Name: CN = lists`, `Reasons: Key Compromise, CA Compromise`, `CRL Issuer: DirName:O = Lists`; `Full Name:
/// URI:http://example.org/c.crl`, `Reasons: Superseded`.
#[test]
fn revocation_lists_are_distributed() {
    let points = web().distribution_points().unwrap().unwrap();
    let points: Vec<_> = points.into_iter().map(Result::unwrap).collect();
    let [first, second, third] = points[..] else {
        panic!("{points:?}");
    };
    let names = |names: GeneralNames<'static>| names.into_iter().map(Result::unwrap).collect::<Vec<_>>();
    let wanted = [
        GeneralName::Uri("http://example.org/a.crl"),
        GeneralName::Uri("ldap://example.org/b"),
    ];
    assert_eq!(names(first.full_name.unwrap()), wanted);
    assert!(first.relative_name.is_none() && first.reasons.is_none() && first.list_issuer.is_none());
    let attributes: Vec<_> = second.relative_name.unwrap().attributes().map(Result::unwrap).collect();
    assert!(attributes.len() == 1 && attributes[0].identifier == *"2.5.4.3");
    assert_eq!(attributes[0].text().unwrap().to_string(), "lists");
    assert_eq!((second.full_name, second.reasons), (None, Some(1 << 1 | 1 << 2)));
    let issuer = names(second.list_issuer.unwrap());
    assert!(matches!(issuer[..], [GeneralName::Directory(name)] if name.to_string() == "O=Lists"));
    assert_eq!(
        names(third.full_name.unwrap()),
        [GeneralName::Uri("http://example.org/c.crl")]
    );
    assert_eq!(third.reasons, Some(1 << 4));
}

/// The request of openssl that `bindings/test` makes, if it is there, asks for names.
#[test]
fn requests_have_extensions() {
    let Ok(path) = std::env::var("DER_C_REQUEST") else {
        return;
    };
    let octets = std::fs::read(path).unwrap();
    let request = Request::from_der(&octets).unwrap();
    let names = request
        .extensions()
        .unwrap()
        .unwrap()
        .subject_alternative_name()
        .unwrap()
        .unwrap();
    let names: Vec<_> = names.into_iter().map(Result::unwrap).collect();
    let wanted = [
        GeneralName::Dns("example.org"),
        GeneralName::Dns("www.example.org"),
        GeneralName::Ip(&[127, 0, 0, 1]),
    ];
    assert_eq!(names, wanted);
}

#[test]
fn a_counter_counts_what_a_writer_writes() -> Result<(), Error> {
    let mut octets = [0; 400];
    let (mut writer, mut counter) = (Writer::new(&mut octets), Counter::new());
    writer.inside(Tag::SEQUENCE, |inside| {
        inside.element(Tag::OCTET_STRING, &[0; 200])?;
        inside.header(Tag::context(1000, false), 3)?;
        inside.write(&[1, 2, 3])
    })?;
    counter.inside(Tag::SEQUENCE, |inside| {
        inside.element(Tag::OCTET_STRING, 200)?;
        inside.header(Tag::context(1000, false), 3)?;
        inside.write(3)
    })?;
    assert_eq!(counter.finish()? as usize, writer.finish()?.len());
    let failed = counter.inside(Tag::SEQUENCE, |inside| inside.element(Tag(7), 1));
    assert_eq!(failed.unwrap_err().kind(), ErrorKind::TagNumberInvalid);
    assert_eq!(counter.finish().unwrap_err().kind(), ErrorKind::Failed);
    Ok(())
}

/// Seconds and times that `date -u -d @SECONDS +%FT%TZ` prints.
#[test]
fn times_are_made_of_seconds() {
    let known = [
        (0, "1970-01-01T00:00:00Z"),
        (1767323045, "2026-01-02T03:04:05Z"),
        (-1, "1969-12-31T23:59:59Z"),
        (253402300799, "9999-12-31T23:59:59Z"),
        (-62167219200, "0000-01-01T00:00:00Z"),
    ];
    for (seconds, text) in known {
        assert_eq!(Time::from_unix_seconds(seconds).unwrap().to_string(), text);
    }
    assert_eq!(Time::from_unix_seconds(253402300800), None);
    assert_eq!(Time::from_unix_seconds(-62167219201), None);
}

#[test]
fn elements_of_other_octets_are_refused() {
    let (octets, others) = ([0x30, 3, 2, 1, 7], [0x30, 3, 1, 1, 0]);
    let mut reader = Reader::der(&octets).unwrap();
    let element = reader.read().unwrap();
    let mut other = Reader::der(&others).unwrap();
    assert_eq!(other.open(&element).unwrap_err().kind(), ErrorKind::Reader);
    assert_eq!(other.octets_of(&element).unwrap_err().kind(), ErrorKind::Reader);
    assert!(reader.open(&element).is_ok() && reader.octets_of(&element).unwrap() == octets);
    assert!(other.skip().is_ok() && other.finish().is_ok());
}

/// The keyUsage of two roots that Debian trusts, of which `openssl x509 -noout -ext keyUsage` prints `Certificate Sign,
/// CRL Sign`; and a basicConstraints that writes `cA FALSE`, of which it prints `CA:FALSE`.
#[test]
fn extensions_that_are_ber_are_read_on_request() {
    let octets = [
        0x30, 0x22, 0x30, 0x0F, 6, 3, 0x55, 0x1D, 0x0F, 1, 1, 0xFF, 4, 5, 3, 3, 7, 6, 0, 0x30, 0x0F, 6, 3, 0x55, 0x1D,
        0x13, 1, 1, 0xFF, 4, 5, 0x30, 3, 1, 1, 0,
    ];
    let extensions = Extensions::from_der(&octets).unwrap();
    assert!(extensions.key_usage().is_err());
    let (usage, is_der) = extensions.key_usage_lenient().unwrap().unwrap();
    assert!(usage.critical && !is_der && usage.bits == 1 << 5 | 1 << 6);
    assert!(extensions.basic_constraints().is_err());
    let (constraints, is_der) = extensions.basic_constraints_lenient().unwrap().unwrap();
    assert!(constraints.critical && !is_der && !constraints.is_authority && constraints.path_length.is_none());
}
