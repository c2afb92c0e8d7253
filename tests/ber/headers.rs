//! Headers: what `openssl asn1parse` shows of the same octets, and examples of X.690.
use crate::checks::{holds, same};
use ber::{Fault, Header, Length, read_header};
use der_base::Class;
use std::process::Abort;

// The header of these octets, and whether its length is in the fewest octets.
fn reads(
    rt: &impl Abort,
    octets: &[u8],
    tag: (Class, bool, u32),
    length: Length,
    header_len: usize,
    minimal: bool,
) {
    let (class, constructed, number) = tag;
    let expected: Result<Header, Fault> = Ok(Header {
        class,
        constructed,
        number,
        length,
        minimal,
        header_len,
    });
    same(rt, read_header(octets), expected);
}

fn is_read(rt: &impl Abort, octets: &[u8], tag: (Class, bool, u32), length: u32, len: usize) {
    reads(rt, octets, tag, Length::Definite(length), len, true);
}

fn is_long(rt: &impl Abort, octets: &[u8], tag: (Class, bool, u32), length: u32, len: usize) {
    reads(rt, octets, tag, Length::Definite(length), len, false);
}

fn is_indefinite(rt: &impl Abort, octets: &[u8], tag: (Class, bool, u32)) {
    reads(rt, octets, tag, Length::Indefinite, 2, true);
}

#[test]
fn shown_by_openssl(rt: HostRuntime) {
    is_read(&rt, &[0x30, 3, 2, 1, 1], (Class::Universal, true, 16), 3, 2);
    is_read(
        &rt,
        &[0x9F, 0x1F, 0],
        (Class::ContextSpecific, false, 31),
        0,
        3,
    );
    is_read(
        &rt,
        &[0x5F, 0x7F, 0],
        (Class::Application, false, 127),
        0,
        3,
    );
    is_read(
        &rt,
        &[0xBF, 0x81, 0x48, 2, 5, 0],
        (Class::ContextSpecific, true, 200),
        2,
        4,
    );
    is_read(
        &rt,
        &[0x1F, 0x21, 1, 0x31],
        (Class::Universal, false, 33),
        1,
        3,
    );
    is_long(
        &rt,
        &[0x30, 0x82, 0, 2, 5, 0],
        (Class::Universal, true, 16),
        2,
        4,
    );
    is_long(
        &rt,
        &[0x30, 0x84, 0, 0, 0, 2, 5, 0],
        (Class::Universal, true, 16),
        2,
        6,
    );
    is_long(&rt, &[4, 0x81, 2, 0, 0], (Class::Universal, false, 4), 2, 3);
    is_long(
        &rt,
        &[4, 0x85, 0, 0, 0, 0, 1, 0],
        (Class::Universal, false, 4),
        1,
        7,
    );
    is_long(
        &rt,
        &[0xDF, 0x81, 0x48, 0x82, 0, 1, 0xAA],
        (Class::Private, false, 200),
        1,
        6,
    );
    is_indefinite(&rt, &[0x24, 0x80, 4, 2, 0, 0], (Class::Universal, true, 4));
    is_indefinite(&rt, &[0xE1, 0x80, 5, 0], (Class::Private, true, 1));
    is_read(&rt, &[0, 0], (Class::Universal, false, 0), 0, 2);
}

// X.690 8.1.3.4, 8.1.3.5, 8.14 and annex A.
#[test]
fn examples_of_the_standard(rt: HostRuntime) {
    is_read(&rt, &[4, 0x26], (Class::Universal, false, 4), 38, 2);
    is_read(&rt, &[4, 0x81, 0xC9], (Class::Universal, false, 4), 201, 3);
    is_read(&rt, &[0x43, 5], (Class::Application, false, 3), 5, 2);
    is_read(&rt, &[0xA2, 7], (Class::ContextSpecific, true, 2), 7, 2);
    is_read(&rt, &[0x67, 7], (Class::Application, true, 7), 7, 2);
    is_read(
        &rt,
        &[0x60, 0x81, 0x85],
        (Class::Application, true, 0),
        133,
        3,
    );
}

#[test]
fn limits(rt: HostRuntime) {
    let number = [0x5F, 0x8F, 0xFF, 0xFF, 0xFF, 0x7F, 0];
    is_read(&rt, &number, (Class::Application, false, u32::MAX), 0, 7);
    let length = [4, 0x84, 0xFF, 0xFF, 0xFF, 0xFF];
    is_read(&rt, &length, (Class::Universal, false, 4), u32::MAX, 6);
    let mut octets = [0u8; 133];
    let identifier = [0xDF, 0x8F, 0xFF, 0xFF, 0xFF, 0x7F, 0xFE];
    for (place, octet) in octets.iter_mut().zip(identifier) {
        *place = octet;
    }
    octets[132] = 9;
    is_long(&rt, &octets, (Class::Private, false, u32::MAX), 9, 133);
}

fn departs(rt: &impl Abort, octets: &[u8], indefinite: bool, string: bool, form: bool, der: bool) {
    let Ok(header) = read_header(octets) else {
        holds(rt, false);
        return;
    };
    same(rt, header.is_indefinite(), indefinite);
    same(rt, header.is_constructed_string(), string);
    same(rt, header.has_wrong_form(), form);
    same(rt, header.is_der(), der);
}

#[test]
fn departures(rt: HostRuntime) {
    departs(&rt, &[0x30, 0], false, false, false, true);
    departs(&rt, &[0x30, 0x81, 0], false, false, false, false);
    departs(&rt, &[0x30, 0x80], true, false, false, false);
    departs(&rt, &[0x24, 0], false, true, false, false);
    departs(&rt, &[0x24, 0x80], true, true, false, false);
    departs(&rt, &[0x21, 0], false, false, true, false);
    departs(&rt, &[0x10, 0], false, false, true, false);
    departs(&rt, &[0x61, 0], false, false, false, true);
    departs(&rt, &[0x0F, 0], false, false, false, true);
}

#[test]
fn reserved_tags(rt: HostRuntime) {
    for (octets, reserved) in [
        ([0, 0], true),
        ([0x0F, 0], true),
        ([0x1E, 0], false),
        ([0x8F, 0], false),
    ] {
        match read_header(&octets) {
            Ok(header) => same(&rt, header.has_reserved_tag(), reserved),
            Err(_) => holds(&rt, false),
        }
    }
}
