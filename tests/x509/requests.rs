//! Requests for certificates.
use crate::checks::{holds, same_at};
use der::{DecodeBytes, Encode, Error, ErrorKind, Length, Tag};
use crate::fixtures::errors::unexpected;
use std::alloc::Global;
use x509::{Attribute, CertReq, CertReqVersion};

// Ed25519, with a subjectAltName: `openssl req -new -subj /CN=example.org -addext
// subjectAltName=DNS:example.org`.
static REQUEST: [u8; 193] = [
    0x30, 0x81, 0xBE, 0x30, 0x72, 0x02, 0x01, 0x00, 0x30, 0x16, 0x31, 0x14, 0x30, 0x12, 0x06, 0x03,
    0x55, 0x04, 0x03, 0x0C, 0x0B, 0x65, 0x78, 0x61, 0x6D, 0x70, 0x6C, 0x65, 0x2E, 0x6F, 0x72, 0x67,
    0x30, 0x2A, 0x30, 0x05, 0x06, 0x03, 0x2B, 0x65, 0x70, 0x03, 0x21, 0x00, 0xF4, 0xFF, 0x3C, 0xE8,
    0x30, 0xDD, 0x38, 0x9E, 0x75, 0xD0, 0xF1, 0x41, 0x8C, 0x98, 0xDA, 0xDD, 0xF3, 0xD4, 0x53, 0xFC,
    0x91, 0x1C, 0x36, 0xAC, 0x56, 0xBE, 0xAA, 0x5C, 0xBC, 0xE7, 0xFB, 0x86, 0xA0, 0x29, 0x30, 0x27,
    0x06, 0x09, 0x2A, 0x86, 0x48, 0x86, 0xF7, 0x0D, 0x01, 0x09, 0x0E, 0x31, 0x1A, 0x30, 0x18, 0x30,
    0x16, 0x06, 0x03, 0x55, 0x1D, 0x11, 0x04, 0x0F, 0x30, 0x0D, 0x82, 0x0B, 0x65, 0x78, 0x61, 0x6D,
    0x70, 0x6C, 0x65, 0x2E, 0x6F, 0x72, 0x67, 0x30, 0x05, 0x06, 0x03, 0x2B, 0x65, 0x70, 0x03, 0x41,
    0x00, 0xC1, 0x2F, 0xE6, 0x88, 0x6C, 0x5A, 0x76, 0x7B, 0x7C, 0x7E, 0xE5, 0x93, 0xD7, 0x21, 0x3A,
    0xEC, 0xDE, 0x65, 0x32, 0x6E, 0x60, 0xD1, 0x2E, 0x27, 0x56, 0x1F, 0x73, 0x4E, 0xB7, 0x51, 0x00,
    0x0F, 0xB3, 0x0B, 0xFD, 0x42, 0x9A, 0xDA, 0x5D, 0xA8, 0x5B, 0xDA, 0xD7, 0x4D, 0x45, 0x99, 0x6F,
    0xB4, 0x3B, 0x23, 0x78, 0x38, 0xFC, 0xC5, 0x52, 0x8C, 0xAC, 0x03, 0x85, 0xB5, 0x1B, 0x4A, 0x33,
    0x08,
];

// Whether the octets are read as a request of version 1 with these numbers of octets of subject,
// key and attributes, and are written exactly as they were.
fn is_read(
    alloc: Global,
    octets: &[u8],
    subject: usize,
    public_key: usize,
    attributes: usize,
) -> bool {
    let Ok(request) = CertReq::from_der(alloc, octets) else {
        return false;
    };
    let Ok(written) = request.to_der(alloc) else {
        return false;
    };
    let info = &request.info;
    info.version.item() == CertReqVersion::V1
        && info.subject.levels.octets().len() == subject
        && info.public_key.subject_public_key.octets().len() == public_key
        && info.attributes.0.octets().len() == attributes
        && written.as_slice() == octets
}

#[test]
fn a_request_is_read_and_written_as_it_was(rt: HostRuntime) {
    holds(&rt, is_read(rt.alloc(), &REQUEST, 22, 33, 41));
}

// The number of octets of the values of the first attribute, if it requests extensions
// (1.2.840.113549.1.9.14).
fn asked_extensions(alloc: Global, octets: &[u8]) -> Option<usize> {
    let request = CertReq::from_der(alloc, octets).ok()?;
    let attribute = request.info.attributes.0.iter(alloc).next()?;
    let asks = [0x2A, 0x86, 0x48, 0x86, 0xF7, 0x0D, 0x01, 0x09, 0x0E];
    if attribute.oid.octets() == asks.as_slice() {
        return Some(attribute.values.octets().len());
    }
    None
}

#[test]
fn the_attributes_of_a_request_are_walked(rt: HostRuntime) {
    let asked = asked_extensions(rt.alloc(), &REQUEST);
    same_at(&rt, 0, asked == Some(26), true);
}

// The error of a request with another octet at a place.
fn refusal_with(alloc: Global, place: usize, octet: u8) -> Option<Error> {
    let mut octets = REQUEST;
    if place < octets.len() {
        octets[place] = octet;
    }
    CertReq::from_der(alloc, &octets).err()
}

// The version's contents are octet 7. The type of the first attribute ends at octet 91, where its
// values begin.
#[test]
fn a_request_with_another_octet_is_rejected_at_its_position(rt: HostRuntime) {
    let integer = ErrorKind::Value { tag: Tag::Integer };
    same_at(
        &rt,
        "version 2",
        refusal_with(rt.alloc(), 7, 1),
        Some(integer.at(Length::new(8))),
    );
    same_at(
        &rt,
        "values that are no SET",
        refusal_with(rt.alloc(), 91, 0x30),
        Some(unexpected(Tag::Set, Tag::Sequence)),
    );
    let oid = ErrorKind::Value {
        tag: Tag::ObjectIdentifier,
    };
    same_at(
        &rt,
        "an identifier that begins with zeros",
        refusal_with(rt.alloc(), 82, 0x80),
        Some(oid.at(Length::new(91))),
    );
}

// 2.5.4.3 with two values.
static ATTRIBUTE: [u8; 15] = [
    0x30, 0x0D, 0x06, 0x03, 0x55, 0x04, 0x03, 0x31, 0x06, 0x02, 0x01, 0x01, 0x02, 0x01, 0x02,
];

// The error of an attribute whose first value is this number.
fn value_refusal(alloc: Global, first: u8) -> Option<Error> {
    let mut octets = ATTRIBUTE;
    octets[11] = first;
    Attribute::from_der(alloc, &octets).err()
}

// The values are in the order of their encodings (X.690 11.6). If they are not, reading fails at
// the second, which begins at octet 12.
#[test]
fn values_out_of_order_are_refused_where_the_second_begins(rt: HostRuntime) {
    same_at(&rt, "in order", value_refusal(rt.alloc(), 1), None);
    same_at(
        &rt,
        "out of order",
        value_refusal(rt.alloc(), 3),
        Some(ErrorKind::SetOrdering.at(Length::new(12))),
    );
}
