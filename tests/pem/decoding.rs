//! Decoding base64: the vectors of RFC 4648, white space, and what the buffer holds.
use crate::checks::{holds, same, same_at, same_octets};
use pem::{ErrorKind, decode_into, decoded_len};
use std::process::Abort;

// The octets and their encoding, by RFC 4648, section 10.
pub const VECTORS: [(&[u8], &[u8]); 7] = [
    (b"", b""),
    (b"f", b"Zg=="),
    (b"fo", b"Zm8="),
    (b"foo", b"Zm9v"),
    (b"foob", b"Zm9vYg=="),
    (b"fooba", b"Zm9vYmE="),
    (b"foobar", b"Zm9vYmFy"),
];

// Decodes the text into a buffer of 64 octets, and compares.
fn decodes(rt: &impl Abort, text: &[u8], octets: &[u8]) {
    let mut buffer = [0xA5u8; 64];
    same_at(
        rt,
        octets.len(),
        decode_into(text, &mut buffer),
        Ok(octets.len()),
    );
    same_octets(rt, &buffer[..octets.len()], octets);
    for rest in &buffer[octets.len()..] {
        same(rt, *rest, 0xA5);
    }
    same(rt, decoded_len(text), octets.len());
}

#[test]
fn vectors_of_rfc_4648(rt: HostRuntime) {
    for (octets, text) in VECTORS {
        decodes(&rt, text, octets);
    }
}

#[test]
fn every_digit(rt: HostRuntime) {
    let text = b"ABCDEFGHIJKLMNOPQRSTUVWXYZabcdefghijklmnopqrstuvwxyz0123456789+/";
    // The 64 values in sequence, by `openssl base64 -d`.
    let octets = [
        0x00, 0x10, 0x83, 0x10, 0x51, 0x87, 0x20, 0x92, 0x8B, 0x30, 0xD3, 0x8F, 0x41, 0x14, 0x93,
        0x51, 0x55, 0x97, 0x61, 0x96, 0x9B, 0x71, 0xD7, 0x9F, 0x82, 0x18, 0xA3, 0x92, 0x59, 0xA7,
        0xA2, 0x9A, 0xAB, 0xB2, 0xDB, 0xAF, 0xC3, 0x1C, 0xB3, 0xD3, 0x5D, 0xB7, 0xE3, 0x9E, 0xBB,
        0xF3, 0xDF, 0xBF,
    ];
    decodes(&rt, text, &octets);
}

#[test]
fn white_space_is_ignored(rt: HostRuntime) {
    decodes(&rt, b" \t\n\x0B\x0C\r", b"");
    decodes(&rt, b"Z m\t9\nv\x0BY\x0Cm\rF y\r\n", b"foobar");
    decodes(&rt, b"\n\nZ\nm\n9\nv\nY\ng\n=\n=\n\n", b"foob");
    decodes(&rt, b"Zm9vYmE\r\n=\r\n", b"fooba");
    decodes(&rt, b"Zm9v Zm9v Zm9v\nZm9vZm9v\n", b"foofoofoofoofoo");
}

#[test]
fn a_buffer_of_the_exact_length(rt: HostRuntime) {
    let mut buffer = [0u8; 6];
    same(&rt, decode_into(b"Zm9v\nYmFy\n", &mut buffer), Ok(6));
    same_octets(&rt, &buffer, b"foobar");
    let mut buffer = [7u8; 5];
    let Err(error) = decode_into(b"Zm9v\nYmFy\n", &mut buffer) else {
        holds(&rt, false);
        return;
    };
    same(&rt, error.kind, ErrorKind::BufferTooSmall { needed: 6 });
    same(
        &rt,
        (
            error.position.offset,
            error.position.line,
            error.position.column,
        ),
        (0, 1, 1),
    );
    same_octets(&rt, &buffer, &[7; 5]);
    let mut empty = [0u8; 0];
    same(&rt, decode_into(b" \n", &mut empty), Ok(0));
}
