//! Octets that are no file with keys. The places are those that `openssl asn1parse` lists, and the
//! errors follow from X.690.
use super::octets::{BAGS, CERTIFICATES, ENCRYPTED, LEGACY, ONCE, PLAIN};
use crate::checks::{holds_at, same, same_at};
use crate::fixtures::again::refusal;
use crate::fixtures::changes::{Fate, Form, fate_as, read_changes, refuses_cuts};
use crate::fixtures::errors::{incomplete, trailing, unexpected};
use der::{Error, ErrorKind, Length, Tag, TagNumber};
use pkcs12::{AuthenticatedSafe, CertBag, Pfx, SafeContents};
use std::alloc::Global;
use std::ops::Range;
use std::process::Abort;

impl Form for Pfx<'_> {
    fn fate(alloc: Global, octets: &[u8]) -> Fate {
        fate_as::<Pfx>(alloc, octets)
    }
}

// The parts of a file, which are a list.
struct Parts;

impl Form for Parts {
    fn fate(alloc: Global, octets: &[u8]) -> Fate {
        fate_as::<AuthenticatedSafe>(alloc, octets)
    }
}

// The bags of a part, which are a list.
struct Bags;

impl Form for Bags {
    fn fate(alloc: Global, octets: &[u8]) -> Fate {
        fate_as::<SafeContents>(alloc, octets)
    }
}

// Aborts the test if what begins at a place of the file is read after a cut, or written as
// something else after a change of one octet, or if no change is read.
fn check<F: Form, const N: usize>(
    rt: &(impl Abort + AllocGlobal),
    row: &str,
    file: &[u8; N],
    part: Range<usize>,
) {
    let mut octets = *file;
    let part = &mut octets[part];
    holds_at(rt, row, refuses_cuts::<F>(rt.alloc(), part));
    match read_changes::<F>(rt.alloc(), part) {
        Some(count) => holds_at(rt, row, count > 0),
        None => holds_at(rt, row, false),
    }
}

#[test]
fn cuts_and_changes_are_refused_or_kept(rt: HostRuntime) {
    check::<Pfx, _>(&rt, "encrypted", &ENCRYPTED, 0..762);
    check::<Pfx, _>(&rt, "legacy", &LEGACY, 0..610);
    check::<Pfx, _>(&rt, "once", &ONCE, 0..638);
    check::<Pfx, _>(&rt, "plain", &PLAIN, 0..508);
    check::<Parts, _>(&rt, "parts", &ENCRYPTED, 30..695);
    check::<Bags, _>(&rt, "certificate", &PLAIN, 57..359);
    check::<Bags, _>(&rt, "key", &PLAIN, 379..508);
    check::<Bags, _>(&rt, "certificates", &CERTIFICATES, 57..680);
    check::<Bags, _>(&rt, "bags", &BAGS, 0..106);
}

// A tag of a context with contents that are elements.
fn context(number: u32) -> Tag {
    Tag::ContextSpecific {
        constructed: true,
        number: TagNumber(number),
    }
}

// The error of the encrypted file with another octet at a place.
fn with_octet(alloc: Global, place: usize, octet: u8) -> Option<Error> {
    let mut octets = ENCRYPTED;
    octets[place] = octet;
    refusal::<Pfx>(alloc, &octets)
}

// The version begins at octet 4, the parts at 7 with their content at 22, the code at 695, 67
// octets from the end, its digest at 714 and the iterations at 758, with their first octet at 760.
#[test]
fn other_octets_are_no_file(rt: HostRuntime) {
    let alloc = rt.alloc();
    let integer = ErrorKind::Value { tag: Tag::Integer };
    for (row, place, octet, expected) in [
        (
            "a version that is a BOOLEAN",
            4,
            0x01,
            unexpected(Tag::Integer, Tag::Boolean),
        ),
        (
            "parts in a SET",
            7,
            0x31,
            unexpected(Tag::Sequence, Tag::Set),
        ),
        (
            "a content with tag 1",
            22,
            0xA1,
            unexpected(context(0), context(1)),
        ),
        ("a code in a SET", 695, 0x31, trailing(695, 67)),
        (
            "a digest that is a BIT STRING",
            714,
            0x03,
            unexpected(Tag::OctetString, Tag::BitString),
        ),
        (
            "iterations that are negative",
            760,
            0x88,
            integer.at(Length::new(762)),
        ),
    ] {
        same_at(&rt, row, with_octet(alloc, place, octet), Some(expected));
    }
}

// In the bags, which begin at octet 57 of the file, the two attributes begin at octet 242, with 23
// octets, and at 265, with 37.
#[test]
fn attributes_that_descend_are_refused(rt: HostRuntime) {
    let mut octets = PLAIN;
    octets[299..336].copy_from_slice(&PLAIN[322..359]);
    octets[336..359].copy_from_slice(&PLAIN[299..322]);
    same(
        &rt,
        refusal::<SafeContents>(rt.alloc(), &octets[57..359]),
        Some(ErrorKind::SetOrdering.at(Length::new(279))),
    );
}

// The error of bags with another octet at a place.
fn bags_with(alloc: Global, place: usize, octet: u8) -> Option<Error> {
    let mut octets = BAGS;
    octets[place] = octet;
    refusal::<SafeContents>(alloc, &octets)
}

// The first bag begins at octet 2 with its type at 4 and its value, of 20 octets, at 17.
#[test]
fn other_octets_are_no_bags(rt: HostRuntime) {
    let alloc = rt.alloc();
    for (row, place, octet, expected) in [
        (
            "bags in a SET",
            0,
            0x31,
            unexpected(Tag::Sequence, Tag::Set),
        ),
        (
            "a bag in a SET",
            2,
            0x31,
            unexpected(Tag::Sequence, Tag::Set),
        ),
        (
            "a type that is an INTEGER",
            4,
            0x02,
            unexpected(Tag::ObjectIdentifier, Tag::Integer),
        ),
        (
            "a value without its tag",
            17,
            0x30,
            unexpected(context(0), Tag::Sequence),
        ),
        (
            "a value that is longer than its element",
            18,
            21,
            incomplete(40, 39, 39),
        ),
        ("a value with less than an element", 20, 17, trailing(38, 1)),
    ] {
        same_at(&rt, row, bags_with(alloc, place, octet), Some(expected));
    }
}

// A value in [0] is one element (RFC 7292, 4.2.3).
#[test]
fn a_certificate_has_one_value(rt: HostRuntime) {
    let alloc = rt.alloc();
    same(
        &rt,
        refusal::<CertBag>(alloc, b"\x30\x09\x06\x01\x2A\xA0\x04\x05\x00\x05\x00"),
        Some(trailing(9, 2)),
    );
    same(
        &rt,
        refusal::<CertBag>(alloc, b"\x30\x05\x06\x01\x2A\xA0\x00"),
        Some(incomplete(8, 7, 7)),
    );
}
