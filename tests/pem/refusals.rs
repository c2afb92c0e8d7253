//! Base64 that is refused, with the kind of the error and its place, counted by hand.
use crate::checks::{holds, same_at};
use pem::{ErrorKind, decode_into};
use std::process::Abort;

// Refuses the text with the kind at the offset, line and column.
fn refuses(rt: &impl Abort, text: &str, kind: ErrorKind, place: (usize, usize, usize)) {
    let mut buffer = [0u8; 64];
    match decode_into(text.as_bytes(), &mut buffer) {
        Ok(_) => holds(rt, false),
        Err(error) => {
            let at = error.position;
            same_at(rt, text, error.kind, kind);
            same_at(rt, text, (at.offset, at.line, at.column), place);
        }
    }
}

#[test]
fn characters_that_base64_does_not_have(rt: HostRuntime) {
    let kind = ErrorKind::InvalidCharacter;
    refuses(&rt, "!", kind, (0, 1, 1));
    refuses(&rt, "Zm9v-m9v", kind, (4, 1, 5));
    refuses(&rt, "Zm9vZm9_", kind, (7, 1, 8));
    refuses(&rt, "Zm9v\nZm9v\r\n  Zm\u{e9}9v", kind, (15, 3, 5));
    refuses(&rt, "Zm9v\n\nZ.9v\n", kind, (7, 3, 2));
    refuses(&rt, "Zg==\u{0}", kind, (4, 1, 5));
    refuses(&rt, "Zg=:", kind, (3, 1, 4));
    refuses(&rt, "A@AA", kind, (1, 1, 2));
    refuses(&rt, "[AAA", kind, (0, 1, 1));
    refuses(&rt, "AAA`", kind, (3, 1, 4));
    refuses(&rt, "AA{A", kind, (2, 1, 3));
}

#[test]
fn padding_in_the_wrong_place(rt: HostRuntime) {
    let kind = ErrorKind::UnexpectedPadding;
    refuses(&rt, "=", kind, (0, 1, 1));
    refuses(&rt, "Z===", kind, (1, 1, 2));
    refuses(&rt, "Zm9v\n=", kind, (5, 2, 1));
    refuses(&rt, "Zm9vZ\n =", kind, (7, 2, 2));
}

#[test]
fn unused_bits_that_are_not_zero(rt: HostRuntime) {
    let kind = ErrorKind::TrailingBits;
    refuses(&rt, "Zh==", kind, (2, 1, 3));
    refuses(&rt, "Zv==", kind, (2, 1, 3));
    refuses(&rt, "Zm9vZm9=", kind, (7, 1, 8));
    refuses(&rt, "Zm\n9\n=", kind, (5, 3, 1));
}

#[test]
fn padding_that_is_missing(rt: HostRuntime) {
    refuses(&rt, "Zg=A", ErrorKind::MissingPadding, (3, 1, 4));
    refuses(&rt, "Zg=\nA", ErrorKind::MissingPadding, (4, 2, 1));
    refuses(&rt, "Zg=", ErrorKind::Incomplete, (3, 1, 4));
    refuses(&rt, "Zg", ErrorKind::Incomplete, (2, 1, 3));
    refuses(&rt, "Zm9vZm8\n", ErrorKind::Incomplete, (8, 2, 1));
    refuses(&rt, "Z", ErrorKind::Incomplete, (1, 1, 2));
    refuses(&rt, "Zm9vZ \r\n ", ErrorKind::Incomplete, (9, 2, 2));
}

#[test]
fn data_after_the_padding(rt: HostRuntime) {
    let kind = ErrorKind::DataAfterPadding;
    refuses(&rt, "Zg===", kind, (4, 1, 5));
    refuses(&rt, "Zg==Zg==", kind, (4, 1, 5));
    refuses(&rt, "Zm8=\nA", kind, (5, 2, 1));
    refuses(&rt, "Zm8==", kind, (4, 1, 5));
}
