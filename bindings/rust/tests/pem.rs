use der_c::{PublicKey, pem};

/// The public key of RFC 8410, 10.1, and its octets there.
const TEXT: &str = "-----BEGIN PUBLIC KEY-----\n\
    MCowBQYDK2VwAyEAGb9ECWmEzf6FQbrBZ9w7lshQhqowtrbLDFw4rXAxZuE=\n\
    -----END PUBLIC KEY-----\n";
const OCTETS: [u8; 44] = [
    0x30, 0x2A, 0x30, 0x05, 0x06, 0x03, 0x2B, 0x65, 0x70, 0x03, 0x21, 0x00, 0x19, 0xBF, 0x44, 0x09, 0x69, 0x84, 0xCD,
    0xFE, 0x85, 0x41, 0xBA, 0xC1, 0x67, 0xDC, 0x3B, 0x96, 0xC8, 0x50, 0x86, 0xAA, 0x30, 0xB6, 0xB6, 0xCB, 0x0C, 0x5C,
    0x38, 0xAD, 0x70, 0x31, 0x66, 0xE1,
];

#[test]
fn a_key_is_read_and_written() {
    let mut space = [0; TEXT.len()];
    assert_eq!(pem::write("PUBLIC KEY", &OCTETS, &mut space), Some(TEXT));
    assert_eq!(pem::length("PUBLIC KEY".len(), OCTETS.len()), TEXT.len());
    assert_eq!(pem::write("PUBLIC KEY", &OCTETS, &mut space[1..]), None);
    let block = pem::blocks(TEXT.as_bytes()).read(&mut space).unwrap().unwrap();
    assert_eq!((block.label, block.line, block.octets), ("PUBLIC KEY", 1, &OCTETS[..]));
    assert_eq!(
        PublicKey::from_der(block.octets).unwrap().algorithm.identifier,
        *"1.3.101.112"
    );
}

/// RFC 4648, 10.
#[test]
fn base64_has_the_vectors_of_its_standard() {
    let rows = [
        ("", ""),
        ("f", "Zg=="),
        ("fo", "Zm8="),
        ("foo", "Zm9v"),
        ("foob", "Zm9vYg=="),
        ("fooba", "Zm9vYmE="),
        ("foobar", "Zm9vYmFy"),
    ];
    for (octets, text) in rows {
        let mut space = [0; 16];
        assert_eq!(pem::encode_base64(octets.as_bytes(), &mut space), Some(text));
        assert_eq!(pem::base64_length(octets.len()), text.len());
        assert_eq!(pem::decode_base64(text.as_bytes(), &mut space), Some(octets.as_bytes()));
        let short = &mut space[..text.len().saturating_sub(1)];
        let wanted = text.is_empty().then_some(text);
        assert_eq!(pem::encode_base64(octets.as_bytes(), short), wanted);
    }
    for text in ["Z", "Zg=", "Zg===", "Zh==", "Zm9v=", "Zm-_"] {
        assert_eq!(pem::decode_base64(text.as_bytes(), &mut [0; 16]), None, "{text}");
    }
    assert_eq!(pem::decode_base64(b"Zm9v", &mut [0; 2]), None);
    assert_eq!(pem::decode_base64(b" Zm\r\n9v", &mut [0; 3]), Some(&b"foo"[..]));
}

#[test]
fn labels_are_checked() {
    for label in [" A", "A ", "-A", "A--B", "A\n", "ä"] {
        assert_eq!(pem::write(label, &[], &mut [0; 64]), None, "{label}");
    }
}

/// Blocks of all kinds, each with its first line.
const BLOCKS: &str = "text\n\
    -----BEGIN A-----\nZm9v\n-----END A-----\n\
    -----BEGIN B-----\nProc-Type: 4,ENCRYPTED\n\nZm9v\n-----END B-----\n\
    text\n\
    -----BEGIN C-----\nZm9v\nZm-v\n-----END C-----\n\
    -----BEGIN D-----\n-----END D-----\n\
    -----BEGIN E-----\nZm9v\n-----END F-----\n\
    -----BEGIN G-----\nZm9v\n-----END G-----\n";

/// What is read: the label and the octets, or the line and whether the block is encrypted.
type Row = Result<(&'static str, usize, Vec<u8>), (usize, bool)>;

fn row<O: AsRef<[u8]>>(read: Result<pem::Block<'static, O>, pem::PemError>) -> Row {
    read.map(|it| (it.label, it.line, it.octets.as_ref().to_vec()))
        .map_err(|it| (it.line(), it.is_encrypted()))
}

fn rows() -> Vec<Row> {
    vec![
        Ok(("A", 2, b"foo".to_vec())),
        Err((5, true)),
        Err((13, false)),
        Ok(("D", 15, Vec::new())),
        Err((19, false)),
        Ok(("G", 20, b"foo".to_vec())),
    ]
}

#[test]
fn blocks_are_read_into_space() {
    let (mut space, mut found) = ([0; 64], Vec::new());
    let mut blocks = pem::blocks(BLOCKS.as_bytes());
    while let Some(read) = blocks.read(&mut space) {
        found.push(row(read));
    }
    assert_eq!(found, rows());
    assert!(blocks.read(&mut space).is_none());
    let mut blocks = pem::blocks(BLOCKS.as_bytes());
    let error = blocks.read(&mut [0; 2]).unwrap().unwrap_err();
    assert!(!error.is_encrypted());
    assert!(blocks.read(&mut space).unwrap().unwrap_err().is_encrypted());
}

/// RFC 7468, 3: both lines of a block have its label, and each ends in dashes. The blocks around one that has not are found.
#[test]
fn blocks_around_a_wrong_one_are_read() {
    const GOOD: &str = "-----BEGIN A-----\nZm9v\n-----END A-----\n";
    for (wrong, line) in [
        ("-----BEGIN A\n", 4),
        ("-----BEGIN A-----\nZm9v\n", 6),
        ("-----BEGIN A-----\nZm9v\n-----END A\n", 6),
        ("-----BEGIN A-----\nZm9v\n-----END B-----\n", 6),
        ("-----BEGIN A-----\nZm*v\n-----END A-----\n", 5),
        ("-----BEGIN A-----\nname: value\nZm9v\n-----END A-----\n", 7),
    ] {
        let (text, mut space, mut found) = (format!("{GOOD}{wrong}{GOOD}"), [0; 128], Vec::new());
        let mut blocks = pem::blocks(text.as_bytes());
        while let Some(read) = blocks.read(&mut space) {
            found.push(read.map(|it| (it.label.to_owned(), it.line)).map_err(|it| it.line()));
        }
        let next = 4 + wrong.lines().count();
        assert_eq!(
            found,
            [Ok(("A".to_owned(), 1)), Err(line), Ok(("A".to_owned(), next))],
            "{wrong}"
        );
    }
}

#[test]
#[cfg(feature = "alloc")]
fn blocks_are_iterated() {
    assert_eq!(pem::blocks(BLOCKS.as_bytes()).map(row).collect::<Vec<_>>(), rows());
    assert_eq!(pem::to_string("PUBLIC KEY", &OCTETS).as_deref(), Some(TEXT));
    assert_eq!(pem::to_string("-", &OCTETS), None);
    let many = TEXT.repeat(100);
    let lines: Vec<usize> = pem::blocks(many.as_bytes()).map(|it| it.unwrap().line).collect();
    assert_eq!(lines, (0..100).map(|it| 3 * it + 1).collect::<Vec<_>>());
}
