//! Encoding as base64: the vectors of RFC 4648, lengths and buffers.
use super::decoding::VECTORS;
use crate::checks::{same, same_octets};
use pem::{ErrorKind, encode_into, encoded_len};

#[test]
fn vectors_of_rfc_4648(rt: HostRuntime) {
    for (octets, text) in VECTORS {
        let mut buffer = [0xA5u8; 16];
        same(&rt, encode_into(octets, &mut buffer), Ok(text.len()));
        same_octets(&rt, &buffer[..text.len()], text);
        for rest in &buffer[text.len()..] {
            same(&rt, *rest, 0xA5);
        }
        same(&rt, encoded_len(octets), text.len());
    }
}

#[test]
fn a_buffer_that_is_too_short_stays(rt: HostRuntime) {
    let mut buffer = [7u8; 7];
    let refused = Err(ErrorKind::BufferTooSmall { needed: 8 });
    same(&rt, encode_into(b"foob", &mut buffer), refused);
    same_octets(&rt, &buffer, &[7; 7]);
    let mut exact = [7u8; 8];
    same(&rt, encode_into(b"foob", &mut exact), Ok(8));
    same_octets(&rt, &exact, b"Zm9vYg==");
}
