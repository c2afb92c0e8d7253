//! Visits, read and written.
use super::asn1::Visit;
use der::{DecodeBytes, Encode};
use der_asn1::{BooleanRef, DateTime, GeneralizedTime, IntRef, SequenceOf, Utf8StringRef};
use std::alloc::Global;

// Ticket 42, of Ann, on 26 November 2026 at noon, to the rooms A and B, who is a member.
static VISIT: [u8; 38] = [
    0x30, 0x24, 0x02, 0x01, 0x2A, 0x0C, 0x03, 0x41, 0x6E, 0x6E, 0x18, 0x0F, 0x32, 0x30, 0x32, 0x36,
    0x31, 0x31, 0x32, 0x36, 0x31, 0x32, 0x30, 0x30, 0x30, 0x30, 0x5A, 0x30, 0x06, 0x0C, 0x01, 0x41,
    0x0C, 0x01, 0x42, 0x01, 0x01, 0xFF,
];

// The visit that the octets of `VISIT` encode.
fn visit(alloc: Global) -> Option<Visit<'static>> {
    let noon = DateTime {
        year: 2026,
        month: 11,
        day: 26,
        hour: 12,
        minute: 0,
        second: 0,
    };
    Some(Visit {
        ticket: IntRef::new(&[42])?,
        visitor: Utf8StringRef::new(b"Ann")?,
        arrival: GeneralizedTime::new(noon)?,
        rooms: SequenceOf::new(alloc, b"\x0C\x01A\x0C\x01B").ok()?,
        member: BooleanRef::new(&[0xFF])?,
    })
}

#[test]
fn a_visit_is_read(rt: HostRuntime) {
    match Visit::from_der(rt.alloc(), &VISIT) {
        Ok(visit) => {
            assert_eq!(rt; visit.ticket.octets(), [42].as_slice());
            assert_eq!(rt; visit.visitor.as_str(), "Ann");
            assert_eq!(rt; visit.arrival.date_time().year, 2026);
            assert_eq!(rt; visit.rooms.iter(rt.alloc()).count(), 2);
            assert!(rt; visit.member.is_true());
        }
        Err(_) => assert!(rt; false),
    }
}

#[test]
fn a_visit_is_written(rt: HostRuntime) {
    let Some(visit) = visit(rt.alloc()) else {
        assert!(rt; false);
        return;
    };
    let mut buffer = [0; 64];
    match visit.encode_to_slice(&mut buffer) {
        Ok(written) => assert_eq!(rt; written, VISIT.as_slice()),
        Err(_) => assert!(rt; false),
    }
}

#[test]
fn a_visit_without_its_last_field_is_refused(rt: HostRuntime) {
    let mut cut = [0; 35];
    for at in 0..35 {
        cut[at] = VISIT[at];
    }
    cut[1] = 0x21;
    assert!(rt; Visit::from_der(rt.alloc(), &cut).is_err());
}

#[test]
fn a_visit_that_is_read_equals_the_one_that_was_written(rt: HostRuntime) {
    match Visit::from_der(rt.alloc(), &VISIT) {
        Ok(read) => assert!(rt; visit(rt.alloc()) == Some(read)),
        Err(_) => assert!(rt; false),
    }
}

#[test]
fn a_visit_is_printed_with_the_names_of_its_fields(rt: HostRuntime) {
    let Ok(visit) = Visit::from_der(rt.alloc(), &VISIT) else {
        assert!(rt; false);
        return;
    };
    let Ok(text) = format!(in rt.alloc(); "{visit:?}") else {
        assert!(rt; false);
        return;
    };
    assert!(rt; text.as_str().starts_with("Visit { ticket: INTEGER(2A), visitor: "));
}
