//! A public key that openssl made, read field by field.
use super::public_key::{PublicKey, public_key};
use der::{ErrorKind, Length};

// openssl genpkey -algorithm ed25519 | openssl pkey -pubout -outform DER
static KEY: [u8; 44] = [
    0x30, 0x2A, 0x30, 0x05, 0x06, 0x03, 0x2B, 0x65, 0x70, 0x03, 0x21, 0x00, 0x08, 0x9B, 0xDB, 0x1E,
    0x50, 0x19, 0x92, 0x22, 0x16, 0xB9, 0xE5, 0x23, 0xA1, 0xCF, 0xAE, 0xA8, 0xF2, 0x88, 0x8B, 0x2C,
    0x15, 0xCC, 0xEE, 0xB7, 0x49, 0x78, 0x7F, 0x25, 0x1B, 0xC9, 0xB0, 0x54,
];

#[test]
fn a_public_key_is_borrowed_by_its_octets(rt: HostRuntime) {
    let key = PublicKey {
        algorithm: &[0x2B, 0x65, 0x70],
        parameters: None,
        key: &KEY[12..],
    };
    assert_eq!(rt; public_key(&KEY), Ok(key));
}

#[test]
fn a_key_that_is_cut_is_refused(rt: HostRuntime) {
    let kind = ErrorKind::Incomplete {
        expected_len: Length::new(44),
        actual_len: Length::new(43),
    };
    assert_eq!(rt;
        public_key(&KEY[..43]).err(),
        Some(kind.at(Length::new(43)))
    );
}
