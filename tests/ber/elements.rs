//! Elements of definite length, among them the examples of X.690 8.6.4.2 and 8.23.
use crate::checks::{holds, same, same_octets};
use ber::{
    BodyFault, ElementFault, Fault, FaultKind, body_len, is_end_of_contents, read_element,
    read_header,
};
use std::process::Abort;

fn contains(rt: &impl Abort, octets: &[u8], contents: &[u8], rest: &[u8]) {
    match read_element(octets) {
        Ok(element) => {
            same_octets(rt, element.contents, contents);
            same_octets(rt, element.rest, rest);
        }
        Err(_) => holds(rt, false),
    }
}

#[test]
fn elements(rt: HostRuntime) {
    contains(&rt, b"\x1A\x05Jones", b"Jones", &[]);
    contains(&rt, b"\x1A\x81\x05Jones\x05\0", b"Jones", &[5, 0]);
    contains(
        &rt,
        b"\x3A\x09\x04\x03Jon\x04\x02es",
        b"\x04\x03Jon\x04\x02es",
        &[],
    );
    let bits = [3, 7, 4, 0x0A, 0x3B, 0x5F, 0x29, 0x1C, 0xD0, 0];
    contains(&rt, &bits, &bits[2..9], &bits[9..]);
}

#[test]
fn no_element(rt: HostRuntime) {
    let cut = &[4, 3, 0xAA, 0xBB];
    let Ok(header) = read_header(cut) else {
        holds(&rt, false);
        return;
    };
    holds(
        &rt,
        matches!(read_element(cut), Err(ElementFault::Truncated(it)) if it == header),
    );
    let open = &[0x23, 0x80, 0, 0];
    let Ok(header) = read_header(open) else {
        holds(&rt, false);
        return;
    };
    holds(
        &rt,
        matches!(read_element(open), Err(ElementFault::Indefinite(it)) if it == header),
    );
    let fault = Fault {
        kind: FaultKind::LengthReserved,
        offset: 1,
    };
    holds(
        &rt,
        matches!(read_element(&[4, 0xFF]), Err(ElementFault::NoHeader(it)) if it == fault),
    );
}

#[test]
fn ends_of_contents(rt: HostRuntime) {
    same(&rt, is_end_of_contents(&[0, 0]), true);
    same(&rt, is_end_of_contents(&[0, 0, 4, 0]), true);
    same(&rt, is_end_of_contents(&[0, 1, 0]), false);
    same(&rt, is_end_of_contents(&[0x20, 0]), false);
    same(&rt, is_end_of_contents(&[0]), false);
}

fn is_body(rt: &impl Abort, octets: &[u8], len: usize) {
    holds(rt, matches!(body_len(octets), Ok(it) if it == len));
}

// What follows the header of indefinite length in X.690 8.6.4.2 and 8.23, and nested ones.
#[test]
fn bodies(rt: HostRuntime) {
    let bits = [
        3, 3, 0, 0x0A, 0x3B, 3, 5, 4, 0x5F, 0x29, 0x1C, 0xD0, 0, 0, 0xAA,
    ];
    is_body(&rt, &bits, 14);
    is_body(&rt, b"\x04\x03Jon\x04\x02es\0\0", 11);
    is_body(&rt, &[0x30, 0x80, 0, 0, 0, 0], 6);
    is_body(
        &rt,
        &[0x30, 0x80, 0xA0, 0x80, 5, 0, 0, 0, 0, 0, 0, 0, 0, 0],
        12,
    );
    is_body(&rt, &[0x30, 4, 0, 0, 0, 0, 0, 0], 8);
    let cut = Fault {
        kind: FaultKind::Truncated { needed: 2 },
        offset: 0,
    };
    let open = BodyFault::NoHeader { at: 4, fault: cut };
    holds(
        &rt,
        matches!(body_len(&[0x30, 0x80, 0, 0]), Err(it) if it == open),
    );
    let Ok(header) = read_header(&[4, 5]) else {
        holds(&rt, false);
        return;
    };
    let short = BodyFault::Truncated { at: 2, header };
    holds(
        &rt,
        matches!(body_len(&[5, 0, 4, 5, 1, 2, 3, 4]), Err(it) if it == short),
    );
}
