//! The names of RFC 5280, 4.2.1.6.
use crate::checks::{holds, same_at};
use crate::fixtures::errors::incomplete;
use der::{DecodeBytes, Encode, Error, ErrorKind, Length, Tag, TagNumber};
use der_asn1::{Ia5StringRef, Implicit};
use std::alloc::Global;
use x509::{DirectoryString, EdiPartyName, GeneralName, GeneralNames};

// One name of each form, each of which is written by hand: 1.2.3.4 with the UTF8String AB, a@b,
// example.org, an element without contents, the empty name, a party with the name x, x:y, 127.0.0.1
// and 1.2.3.4.
static NAMES: [u8; 67] = [
    0x30, 0x41, //
    0xA0, 0x0B, 0x06, 0x03, 0x2A, 0x03, 0x04, 0xA0, 0x04, 0x0C, 0x02, 0x41, 0x42, //
    0x81, 0x03, 0x61, 0x40, 0x62, //
    0x82, 0x0B, 0x65, 0x78, 0x61, 0x6D, 0x70, 0x6C, 0x65, 0x2E, 0x6F, 0x72, 0x67, //
    0xA3, 0x00, //
    0xA4, 0x02, 0x30, 0x00, //
    0xA5, 0x05, 0xA1, 0x03, 0x0C, 0x01, 0x78, //
    0x86, 0x03, 0x78, 0x3A, 0x79, //
    0x87, 0x04, 0x7F, 0x00, 0x00, 0x01, //
    0x88, 0x03, 0x2A, 0x03, 0x04, //
    0x82, 0x03, 0x61, 0x2E, 0x62,
];

// The number of octets of the name of a party, if it is a UTF8String.
fn party_len(party: &EdiPartyName<'_>) -> usize {
    match &party.party_name.0.value {
        DirectoryString::Utf8String(text) => text.as_str().len(),
        _ => 0,
    }
}

// The number of a name's form, and the number of the octets that identify it.
fn form(name: &GeneralName<'_>) -> (u32, usize) {
    match name {
        GeneralName::OtherName(name) => (0, name.0.value.0.contents.len()),
        GeneralName::Rfc822Name(name) => (1, name.0.octets().len()),
        GeneralName::DnsName(name) => (2, name.0.octets().len()),
        GeneralName::X400Address(name) => (3, name.0.octets().len()),
        GeneralName::DirectoryName(name) => (4, name.0.levels.octets().len()),
        GeneralName::EdiPartyName(name) => (5, party_len(&name.0)),
        GeneralName::UniformResourceIdentifier(name) => (6, name.0.octets().len()),
        GeneralName::IpAddress(name) => (7, name.0.octets().len()),
        GeneralName::RegisteredId(name) => (8, name.0.octets().len()),
    }
}

#[test]
fn names_of_every_form_are_read_and_written_as_they_were(rt: HostRuntime) {
    let alloc = rt.alloc();
    let Ok(names) = GeneralNames::from_der(alloc, &NAMES) else {
        holds(&rt, false);
        return;
    };
    let expected = [
        (0, 2),
        (1, 3),
        (2, 11),
        (3, 0),
        (4, 0),
        (5, 1),
        (6, 3),
        (7, 4),
        (8, 3),
        (2, 3),
    ];
    let mut at = 0;
    let mut start = 2;
    for name in names.iter(alloc) {
        let expected_form = if at < 10 { expected[at] } else { (9, 0) };
        same_at(&rt, at, form(&name), expected_form);
        let Ok(written) = name.to_der(alloc) else {
            holds(&rt, false);
            return;
        };
        let end = start + written.len();
        holds(&rt, end <= NAMES.len() && written.as_slice() == &NAMES[start..end]);
        start = end;
        at += 1;
    }
    same_at(&rt, "names", at, 10);
    match names.to_der(alloc) {
        Ok(written) => holds(&rt, written.as_slice() == NAMES.as_slice()),
        Err(_) => holds(&rt, false),
    }
}

// The error of the names with another octet at a place.
fn refusal(alloc: Global, place: usize, octet: u8) -> Option<Error> {
    let mut octets = NAMES;
    if place < octets.len() {
        octets[place] = octet;
    }
    let names: Result<GeneralNames<'_>, Error> = GeneralNames::from_der(alloc, &octets);
    names.err()
}

// The tag of the second name is octet 15, the text of the third begins at octet 22 and ends at 33,
// and the identifier of the ninth begins at octet 59 and ends at 62.
#[test]
fn wrong_names_are_refused_where_they_are(rt: HostRuntime) {
    let tag = Tag::ContextSpecific {
        constructed: false,
        number: TagNumber(9),
    };
    let unknown = ErrorKind::TagUnexpected {
        expected: None,
        actual: tag,
    };
    same_at(&rt, "[9]", refusal(rt.alloc(), 15, 0x89), Some(unknown.at(Length::new(15))));
    let text = ErrorKind::Value { tag: Tag::Ia5String };
    same_at(&rt, "no IA5", refusal(rt.alloc(), 22, 0x80), Some(text.at(Length::new(33))));
    let identifier = ErrorKind::Value {
        tag: Tag::ObjectIdentifier,
    };
    same_at(&rt, "a zero first", refusal(rt.alloc(), 59, 0x80), Some(identifier.at(Length::new(62))));
    same_at(&rt, "too long", refusal(rt.alloc(), 63, 0x05), Some(incomplete(68, 67, 67)));
}

#[test]
fn a_name_is_written(rt: HostRuntime) {
    let Some(text) = Ia5StringRef::new(b"a.b") else {
        holds(&rt, false);
        return;
    };
    match GeneralName::DnsName(Implicit(text)).to_der(rt.alloc()) {
        Ok(written) => holds(&rt, written.as_slice() == &NAMES[62..]),
        Err(_) => holds(&rt, false),
    }
}
