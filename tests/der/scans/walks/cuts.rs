//! Indefinite-length contents after the two octets of a header, and each prefix of them.
use super::scans::{Answer, answer_between};
use super::*;
use crate::checks::same;
use std::process::Abort;

// The result for contents of `count` octets, end-of-contents octets included.
fn body_of(count: u32) -> Answer {
    Ok(Length::new_indefinite(count))
}

// After the first two octets both scans return this result, and equal results for each prefix. If a
// part ends before that, end-of-contents octets follow.
fn scans_each_cut(
    rt: &impl Abort,
    alloc: Global,
    octets: &[u8],
    expected: Answer,
) -> Result<(), Fail> {
    let count = u32::from(Length::new_usize(octets.len())?);
    let mut longer = Vec::from_slice(alloc, octets)?;
    longer.extend_from_slice(&[0x00, 0x00])?;
    for end in 2..count {
        let _ = answer_between(rt, longer.as_slice(), 2, end)?;
    }
    same(
        rt,
        answer_between(rt, longer.as_slice(), 2, count)?,
        expected,
    );
    Ok(())
}

#[test]
fn both_scans_answer_alike_at_each_cut_of_short_bodies(rt: HostRuntime) -> Result<(), Fail> {
    let rows: [(&[u8], u32); 4] = [
        (&SEGMENT_OF_ZEROS, 10),
        (&[0x04, 0x80, 0x00, 0x00], 2),
        (&[0x30, 0x80, 0x05, 0x00, 0x00, 0x00], 4),
        (&[0x30, 0x80, 0xBF, 0x21, 0x80, 0x00, 0x00, 0x00, 0x00], 7),
    ];
    for (octets, count) in rows {
        scans_each_cut(&rt, rt.alloc(), octets, body_of(count))?;
    }
    Ok(())
}

#[test]
fn both_scans_answer_alike_at_each_cut_of_eight_steps(rt: HostRuntime) -> Result<(), Fail> {
    let octets = around_contents(rt.alloc(), 126)?;
    scans_each_cut(&rt, rt.alloc(), octets.as_slice(), body_of(130))
}

#[test]
fn both_scans_answer_alike_at_each_cut_of_64_open_bodies(rt: HostRuntime) -> Result<(), Fail> {
    let octets = around_null(rt.alloc(), 64)?;
    scans_each_cut(&rt, rt.alloc(), octets.as_slice(), body_of(256))
}

#[test]
fn both_scans_refuse_65_open_bodies(rt: HostRuntime) -> Result<(), Fail> {
    let octets = around_null(rt.alloc(), 65)?;
    scans_each_cut(&rt, rt.alloc(), octets.as_slice(), Err(too_deep(130)))
}

#[test]
fn both_scans_refuse_alike_what_is_no_item(rt: HostRuntime) -> Result<(), Fail> {
    let rows: [(&[u8], Error); 9] = [
        (&[0x30, 0x80], incomplete(3, 2, 2)),
        (&[0x30, 0x80, 0x00], incomplete(4, 3, 3)),
        (&[0x30, 0x80, 0x00, 0x01], indefinite(4)),
        (&[0x30, 0x80, 0x3F, 0x00], unknown(0x3F, 3)),
        (&[0x30, 0x80, 0x1F], invalid_number(3)),
        (&[0x30, 0x80, 0x5F, 0x9E], incomplete(5, 4, 4)),
        (&[0x30, 0x80, 0x5F, 0x80], invalid_number(4)),
        (&[0x30, 0x80, 0x04, 0x80], indefinite(4)),
        (&[0x04, 0x80], incomplete(3, 2, 2)),
    ];
    for (octets, error) in rows {
        scans_each_cut(&rt, rt.alloc(), octets, Err(error))?;
    }
    Ok(())
}

#[test]
fn both_scans_refuse_alike_wrong_lengths_and_cut_contents(rt: HostRuntime) -> Result<(), Fail> {
    let short = [0x30, 0x80, 0x04, 0x81, 0x7F];
    let many = [0x30, 0x80, 0x04, 0x85];
    let long = [0x30, 0x80, 0x04, 0x84, 0xFF, 0xFF, 0xFF, 0xFF];
    let rows: [(&[u8], Error); 5] = [
        (short.as_slice(), incorrect(Tag::OctetString, 5)),
        (many.as_slice(), incorrect(Tag::OctetString, 4)),
        (&[0x30, 0x80, 0x04, 0x82, 0x00], incomplete(6, 5, 5)),
        (
            &[0x30, 0x80, 0x04, 0x14, 0x2A, 0x2A, 0x2A],
            incomplete(20, 7, 4),
        ),
        (long.as_slice(), incomplete(24, 8, 8)),
    ];
    for (octets, error) in rows {
        scans_each_cut(&rt, rt.alloc(), octets, Err(error))?;
    }
    Ok(())
}
