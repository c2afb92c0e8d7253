//! Reading of messages with indefinite lengths.
ghost use Rattle.std.specs.Prelude.{◌≡◌};

use crate::{Totals, walk};
use der::{EncodingRules, SliceReader, Turns, decode_indefinite_length};
use std::marker::Brand;
use std::sync::ledger::{Blank, Ledger};

/// Reads the messages (elements) in `bytes` under the Basic Encoding Rules, one after the other,
/// until the octets end or there is an error. If a length is indefinite, a scan finds the end of
/// the contents. In the result, `elements` is the number of messages, `contents` is the total
/// number of their contents octets, end-of-contents octets included, and `octet_sum` is the sum of
/// their first contents octets.
#[unsafe(no_mangle)]
pub extern "C" fn der_bench_scan(bytes: &[u8]) -> Totals {
    walk(bytes, EncodingRules::Ber)
}

/// Scans the messages (elements) in `bytes`, one after the other, until the octets end or there is
/// an error. Each message must have a header of two octets, which are skipped, and contents of
/// indefinite length. The scan for readers that return no slices finds the length of the contents,
/// octet by octet. In the result, `elements` is the number of messages, `contents` is the total
/// number of their contents octets, end-of-contents octets included, and `octet_sum` is the sum of
/// their first contents octets.
#[unsafe(no_mangle)]
pub extern "C" fn der_bench_scan_by_octets(bytes: &[u8]) -> Totals {
    let mut totals = Totals::none();
    let mut rest = bytes;
    for _ in 0..bytes.len() {
        let Some(body) = rest.get(2..) else {
            return totals;
        };
        let Some(len) = body_len::<Brand>(body, Blank::new(1)) else {
            return totals;
        };
        let Some(following) = body.get(len..) else {
            return totals;
        };
        let first = body.first().copied().unwrap_or(0);
        totals.pass(len, first as u64);
        rest = following;
    }
    totals
}

// The number of octets of indefinite-length contents, end-of-contents octets included.
fn body_len<L: Ledger>(octets: &[u8], blank: Blank) -> Option<usize>
    requires name { blank.name ≡ L.name }
    requires parts { blank.parts ≡ L.parts }
    requires whole { blank.parts ≡ 1 }
{
    let Ok(mut reader) = SliceReader::new_with_encoding_rules(octets, EncodingRules::Ber) else {
        return None;
    };
    let mut turns = Turns::<L>::new(blank);
    match decode_indefinite_length(&mut reader, &mut turns) {
        Ok(len) => Some(u32::from(len) as usize),
        Err(_) => None,
    }
}
