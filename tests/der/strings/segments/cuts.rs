//! Every prefix of elements in segments: each is an error where it was truncated.
use super::joined::ELEMENTS;
use super::levels::{Forms, nested};
use super::*;
use crate::checks::same_at;
use crate::der::strings::elements::joined_of_ber;
use der::example::JoinedOctets;
use std::process::Abort;

// The position of contents that a scan skips at once, and their number of octets, 16 at most.
pub(super) type Passed = (u32, u32);

// The error of an element that was truncated after `cut` octets: the next octet is missing, or
// those that a scan skips at once.
fn missing(passed: &[Passed], cut: u32) -> Error {
    for (start, count) in passed {
        if cut >= *start && cut - *start < *count {
            return incomplete(start.saturating_add(*count), cut, *start);
        }
    }
    incomplete(cut.saturating_add(1), cut, cut)
}

// Reading a prefix gives this error.
fn refused(rt: &impl Abort, cut: usize, read: &Result<JoinedOctets, Error>, error: Error) {
    match read {
        Ok(_) => same_at(rt, cut, None, Some(error)),
        Err(reported) => same_at(rt, cut, Some(*reported), Some(error)),
    }
}

// The whole element is joined to these octets.
fn read(rt: &impl Abort, row: usize, read: &Result<JoinedOctets, Error>, joined: &[u8]) {
    match read {
        Ok(whole) => same_at(rt, row, whole.octets.as_slice(), joined),
        Err(error) => same_at(rt, row, Some(*error), None),
    }
}

// The element is joined to these octets, and each proper prefix of it is truncated.
fn cut_everywhere(
    rt: &impl Abort,
    alloc: Global,
    octets: &[u8],
    joined: &[u8],
    passed: &[Passed],
) -> Result<(), Error> {
    for cut in 0..octets.len() {
        let (beginning, _) = octets.split_at(cut);
        refused(
            rt,
            cut,
            &joined_of_ber(alloc, beginning),
            missing(passed, count_of(beginning)?),
        );
    }
    read(rt, octets.len(), &joined_of_ber(alloc, octets), joined);
    Ok(())
}

#[test]
fn elements_in_segments_are_refused_wherever_they_are_cut(rt: HostRuntime) -> Result<(), Fail> {
    for (octets, joined, passed) in ELEMENTS {
        cut_everywhere(&rt, rt.alloc(), octets, joined, passed)?;
    }
    Ok(())
}

#[test]
fn elements_64_levels_deep_are_refused_wherever_they_are_cut(rt: HostRuntime) -> Result<(), Fail> {
    for forms in [Forms::Definite, Forms::Indefinite] {
        let octets = nested(rt.alloc(), forms, 64, &[0x04, 0x01, 0x2A])?;
        cut_everywhere(&rt, rt.alloc(), octets.as_slice(), &[0x2A], &[])?;
    }
    Ok(())
}
