//! All lists of a few octets, joined by a simple recursive function and by the library.
use super::*;
use crate::checks::{holds_at, same, same_at};
use std::alloc::AllocError;
use std::process::Abort;

// What follows the end-of-contents octets that close indefinite-length contents (X.690 8.1.3.6).
// The only identifiers are 01, 02, 04 and 80, which are primitive, and 24.
fn after_body(octets: &[u8], levels: u32) -> Option<&[u8]> {
    if levels == 0 {
        return None;
    }
    let mut left = octets;
    for _ in 0..octets.len() {
        left = match left {
            [0x00, 0x00, following @ ..] => return Some(following),
            [0x24, 0x80, inner @ ..] => after_body(inner, levels - 1)?,
            [0x00, ..] | [_, 0x80, ..] => return None,
            [_, count, following @ ..] => following.get(*count as usize..)?,
            _ => return None,
        };
    }
    None
}

// The first segment: whether it is constructed, its contents, and what follows it.
fn first_segment(octets: &[u8]) -> Option<(bool, &[u8], &[u8])> {
    match octets {
        [0x24, 0x80, inner @ ..] => {
            let following = after_body(inner, 64)?;
            let count = inner.len().saturating_sub(following.len()).saturating_sub(2);
            Some((true, inner.get(..count)?, following))
        }
        [identifier, count, inner @ ..]
            if (*identifier == 0x04 || *identifier == 0x24) && *count < 0x80 => {
            let count = *count as usize;
            Some((
                *identifier == 0x24,
                inner.get(..count)?,
                inner.get(count..)?,
            ))
        }
        _ => None,
    }
}

// Joins segments, which may be nested `levels` deep, and returns whether all of the octets are
// segments (X.690 8.7.3).
fn join_plainly(octets: &[u8], levels: u32, out: &mut Vec<u8>) -> Result<bool, AllocError> {
    let mut left = octets;
    for _ in 0..octets.len() {
        let Some((constructed, contents, following)) = first_segment(left) else {
            break;
        };
        if !constructed {
            out.extend_from_slice(contents)?;
        } else if levels == 0 || !join_plainly(contents, levels - 1, out)? {
            return Ok(false);
        }
        left = following;
    }
    Ok(left.is_empty())
}

// The octet of a digit.
fn octet(digit: u32) -> u8 {
    match digit {
        0 => 0x00,
        1 => 0x01,
        2 => 0x04,
        3 => 0x24,
        4 => 0x80,
        _ => 0x02,
    }
}

// The list of `count` octets with this number, one digit in base 6 for each.
fn list_of(alloc: Global, number: u32, count: usize) -> Result<Vec<u8>, AllocError> {
    let mut octets = Vec::with_capacity(alloc, count)?;
    let mut digits = number;
    for _ in 0..count {
        octets.push(octet(digits % 6))?;
        digits /= 6;
    }
    Ok(octets)
}

// Whether a reader joins octets as the simple function does.
fn is_joined_plainly<R: Joins>(
    alloc: Global,
    mut reader: R,
    octets: &[u8],
    levels: u32,
) -> Result<bool, Fail> {
    let mut plain = Vec::new(alloc);
    let joinable = join_plainly(octets, levels, &mut plain)?;
    let length = Length::new_indefinite(count_of(octets)?);
    Ok(match reader.join(alloc, length, Tag::OctetString) {
        Ok(joined) => joinable && joined.as_slice() == plain.as_slice(),
        Err(_) => !joinable,
    })
}

// All lists of `count` octets, of which there are `lists`.
fn lists_of(rt: &impl Abort, alloc: Global, count: usize, lists: u32) -> Result<(), Fail> {
    for number in 0..lists {
        let list = list_of(alloc, number, count)?;
        let octets = list.as_slice();
        holds_at(
            rt,
            number,
            is_joined_plainly(alloc, ber_reader(octets)?, octets, 64)?,
        );
        holds_at(
            rt,
            number,
            is_joined_plainly(alloc, der_reader(octets)?, octets, 0)?,
        );
    }
    Ok(())
}

#[test]
fn all_short_lists_are_joined_as_by_a_plain_function(rt: HostRuntime) -> Result<(), Fail> {
    let mut lists = 1u32;
    for count in 0..=6usize {
        lists_of(&rt, rt.alloc(), count, lists)?;
        lists = lists.saturating_mul(6);
    }
    Ok(())
}

// The simple function itself, on rows worked out by hand.
#[test]
fn the_plain_function_joins_the_worked_rows(rt: HostRuntime) -> Result<(), Fail> {
    let rows: [(&[u8], u32, Option<&[u8]>); 8] = [
        (&[], 0, Some(&[])),
        (
            &[0x04, 0x02, 0x01, 0x02, 0x04, 0x00],
            0,
            Some(&[0x01, 0x02]),
        ),
        (&[0x24, 0x00], 0, None),
        (&[0x24, 0x00], 1, Some(&[])),
        (
            &[0x24, 0x80, 0x04, 0x01, 0x02, 0x00, 0x00, 0x04, 0x00],
            1,
            Some(&[0x02]),
        ),
        (&[0x24, 0x04, 0x24, 0x02, 0x04, 0x00], 1, None),
        (&[0x24, 0x80, 0x04, 0x02, 0x00, 0x00], 1, None),
        (&[0x02, 0x00], 1, None),
    ];
    for (octets, levels, joined) in rows {
        let mut out = Vec::new(rt.alloc());
        let joinable = join_plainly(octets, levels, &mut out)?;
        same_at(&rt, octets.len(), joinable, joined.is_some());
        if let Some(joined) = joined {
            same(&rt, out.as_slice(), joined);
        }
    }
    Ok(())
}
