//! All lists of at most three octets out of six.
use super::scans::answer_between;
use super::*;
use std::process::Abort;

// half of the end-of-contents octets, a BOOLEAN
const OCTETS: [u8; 6] = [0x00, 0x01, 0x04, 0x24, 0x30, 0x80];

// The first `lists` lists of `count` octets, with the six octets as digits.
fn scan_lists(rt: &impl Abort, count: u32, lists: usize) -> Result<(), Error> {
    for list in 0..lists {
        let octets = [
            OCTETS[list % 6],
            OCTETS[list / 6 % 6],
            OCTETS[list / 36 % 6],
            0x00,
            0x00,
        ];
        let _ = answer_between(rt, &octets, 0, count)?;
    }
    Ok(())
}

#[test]
fn both_scans_answer_alike_on_all_short_lists_of_six_octets(rt: HostRuntime) -> Result<(), Fail> {
    for (count, lists) in [(0, 1), (1, 6), (2, 36), (3, 216)] {
        scan_lists(&rt, count, lists)?;
    }
    Ok(())
}
