//! Versions, read and written.
use super::version::Version;
use der::{DecodeBytes, Encode, Error, Length, Tag};

#[test]
fn a_version_is_read_and_written(rt: HostRuntime) {
    assert_eq!(rt;
        Version::from_der(rt.alloc(), &[0x02, 0x01, 0x02]),
        Ok(Version::V3)
    );
    let refused: Result<Version, Error> = Version::from_der(rt.alloc(), &[0x02, 0x01, 0x03]);
    assert_eq!(rt; refused, Err(Tag::Integer.value_error().at(Length::new(3))));
    let mut buffer = [0; 3];
    assert_eq!(rt;
        Version::V2.encode_to_slice(&mut buffer),
        Ok(&[0x02, 0x01, 0x01][..])
    );
}
