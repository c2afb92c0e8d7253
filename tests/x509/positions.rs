//! The places of errors in a certificate, each octet of which is changed in turn.
use crate::checks::holds_at;
use crate::x509::certificates::SELF_SIGNED;
use schema_types::Schema;
use der::{DecodeBytes, Error, ErrorKind};
use schema_kinds::{Kind, read_as, table_octets};
use std::alloc::Global;
use x509::Certificate;

// The first octets of the elements of the certificate, as `openssl asn1parse` lists them, without
// those inside [0] and [3], which belong to the same field.
static STARTS: [u32; 41] = [
    0, 4, 7, 12, 16, 18, 23, 25, 27, 29, 34, 47, 49, 64, 79, 81, 83, 85, 90, 103, 105, 107, 112,
    147, 151, 153, 158, 182, 184, 189, 215, 217, 222, 225, 232, 234, 239, 242, 248, 250, 255,
];

// The start of the innermost of them that has this octet.
fn start_of(place: u32) -> u32 {
    let mut start = 0;
    for next in STARTS {
        if next <= place {
            start = next;
        }
    }
    start
}

// Whether an error without a position is of a kind that may lack one.
fn may_lack_position(error: &Error) -> bool {
    match error.kind() {
        ErrorKind::TagUnexpected { .. } | ErrorKind::Overflow | ErrorKind::Utf8(_) => true,
        _ => false,
    }
}

// Whether the error names a place from the element with the changed octet on: by its position, or
// by a departure that is found by the table of types. None is found if the outermost tag is wrong.
fn has_place(
    alloc: Global,
    schema: &Schema<'_>,
    octets: &[u8],
    error: Error,
    place: u32,
) -> bool {
    let start = start_of(place);
    let end = octets.len() as u32;
    if let Some(position) = error.position() {
        let at = u32::from(position);
        return start <= at && at <= end;
    }
    match read_as(alloc, schema, Kind::Certificate.node(), octets) {
        Ok(tree) => {
            let found = tree.departures.iter().any(|departure| start as usize <= departure.offset
                && departure.offset < octets.len());
            may_lack_position(&error) && (found || place == 0)
        }
        Err(_) => false,
    }
}

#[test]
fn a_changed_octet_is_reported_at_a_place_in_the_file(rt: HostRuntime) {
    let (mut refused, table) = (0, table_octets(rt.alloc()).unwrap_or(Vec::new(rt.alloc())));
    let Ok(schema) = Schema::new(table.as_slice()) else {
        return;
    };
    for change in [1, 0x20, 0x80, 0xFF] {
        for place in 0..SELF_SIGNED.len() {
            let mut octets = SELF_SIGNED;
            octets[place] ^= change;
            if let Err(error) = Certificate::from_der(rt.alloc(), &octets) {
                let is_placed = has_place(rt.alloc(), &schema, &octets, error, place as u32);
                holds_at(&rt, format_args!("octet {place}, change {change}"), is_placed);
                refused += 1;
            }
        }
    }
    // The tags and lengths of 43 elements, at least.
    holds_at(&rt, refused, refused >= 4 * 86);
}
