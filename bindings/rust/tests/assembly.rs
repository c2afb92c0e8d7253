//! What is written from parts, with the octets that X.690 and RFC 5280 demand.
use der_c::{Certificate, CertificateParts, Error, ErrorKind, Tag, Writer, id};

fn written(write: impl FnOnce(&mut Writer) -> Result<(), Error>) -> Result<Vec<u8>, Error> {
    let mut space = vec![0; 1 << 16];
    let mut writer = Writer::new(&mut space);
    write(&mut writer)?;
    Ok(writer.finish()?.to_vec())
}

#[test]
fn a_level_of_a_name() {
    let level = written(|level| level.name_attribute(id::COMMON_NAME, Tag::UTF8_STRING, b"a")).unwrap();
    assert_eq!(
        level,
        [0x31, 0x0A, 0x30, 0x08, 0x06, 0x03, 0x55, 0x04, 0x03, 0x0C, 0x01, b'a']
    );
    let refused = written(|level| level.name_attribute(id::COMMON_NAME, Tag::PRINTABLE_STRING, b"@"));
    assert!(matches!(refused.unwrap_err().kind(), ErrorKind::Value { .. }));
}

#[test]
fn an_extension_and_an_algorithm() {
    let usage = [0x03, 0x02, 0x07, 0x80];
    let extension = written(|it| it.extension(id::KEY_USAGE, true, &usage)).unwrap();
    assert_eq!(
        extension[..11],
        [0x30, 0x0E, 0x06, 0x03, 0x55, 0x1D, 0x0F, 0x01, 0x01, 0xFF, 0x04]
    );
    assert_eq!(extension[12..], usage);
    let algorithm = written(|it| it.algorithm(id::ED25519, false)).unwrap();
    assert_eq!(algorithm, [0x30, 0x05, 0x06, 0x03, 0x2B, 0x65, 0x70]);
}

/// A certificate of parts, which the library reads: its name, its times and its extension.
#[test]
fn a_certificate() {
    let name = written(|names| {
        names.inside(Tag::SEQUENCE, |levels| {
            levels.name_attribute(id::COMMON_NAME, Tag::UTF8_STRING, b"example.org")
        })
    })
    .unwrap();
    // the key of RFC 8410, 10.1
    let key = written(|key| {
        key.inside(Tag::SEQUENCE, |key| {
            key.algorithm(id::ED25519, false)?;
            key.bit_string(
                Tag::BIT_STRING,
                der_c::Bits {
                    octets: &[0x19; 32],
                    unused: 0,
                },
            )
        })
    })
    .unwrap();
    let extensions = written(|all| {
        all.inside(Tag::SEQUENCE, |all| {
            // a basicConstraints of an authority
            all.extension(id::BASIC_CONSTRAINTS, true, &[0x30, 0x03, 0x01, 0x01, 0xFF])
        })
    })
    .unwrap();
    let algorithm = written(|it| it.algorithm(id::ED25519, false)).unwrap();
    let validity = written(|it| it.validity(1_700_000_000, 2_524_608_000)).unwrap();
    let parts = CertificateParts {
        serial_number: &[0x00, 0x80],
        signature_algorithm: &algorithm,
        issuer: &name,
        validity: &validity,
        subject: &name,
        public_key: &key,
        extensions: &extensions,
    };
    let part = written(|part| part.certificate_part(&parts)).unwrap();
    let octets = written(|it| it.signed(&part, &algorithm, &[0x55; 64])).unwrap();
    let certificate = Certificate::from_der(&octets).unwrap();
    assert_eq!(certificate.serial_number(), [0x00, 0x80]);
    assert_eq!(certificate.not_before(), 1_700_000_000);
    assert_eq!(certificate.not_after(), 2_524_608_000);
    assert_eq!(certificate.subject().to_string(), "CN=example.org");
    let constraints = certificate.extensions().basic_constraints().unwrap().unwrap();
    assert!(constraints.is_authority);
    let none = CertificateParts {
        serial_number: &[],
        ..parts
    };
    assert!(matches!(
        written(|part| part.certificate_part(&none)).unwrap_err().kind(),
        ErrorKind::Value { .. }
    ));
}

#[test]
fn a_request_without_extensions() {
    let part = written(|part| part.request_part(&[0x30, 0x00], &[0x05, 0x00], &[])).unwrap();
    assert_eq!(part, [0x30, 0x09, 0x02, 0x01, 0x00, 0x30, 0x00, 0x05, 0x00, 0xA0, 0x00]);
}
