//! Cases, as `.ci/paths.py` writes them.
use der_asn1::DateTime;
use std::alloc::{AllocError, Global};

/// A path to judge.
#[derive(Drop)]
pub struct Case<'a> {
    /// The time.
    pub time: DateTime,
    /// The certificate of the trust anchor, then those of the path.
    pub certificates: Vec<&'a [u8]>,
    /// The contents octets of the policies that the caller allows.
    pub allowed: Vec<&'a [u8]>,
    /// Whether a policy is required, mappings are inhibited, and anyPolicy is.
    pub flags: [bool; 3],
    /// The contents octets of the purpose that is asked for; none if they are empty.
    pub purpose: &'a [u8],
    /// Whether each certificate has to have the purpose, or the last alone.
    pub is_purpose_of_all: bool,
}

impl<'a> Case<'a> {
    /// The case at the front, and what follows. `None` at the end.
    pub fn split(alloc: Global, octets: &'a [u8]) -> Result<Option<(Self, &'a [u8])>, AllocError> {
        let Some((time, rest)) = split_time(octets) else {
            return Ok(None);
        };
        let Some((certificates, rest)) = split_list(alloc, rest)? else {
            return Ok(None);
        };
        let Some((allowed, rest)) = split_list(alloc, rest)? else {
            return Ok(None);
        };
        let Some((purpose, rest)) = split_counted(rest) else {
            return Ok(None);
        };
        let [explicit, mapping, any, of_all, rest @ ..] = rest else {
            return Ok(None);
        };
        let case = Case {
            time,
            certificates,
            allowed,
            flags: [*explicit == 1, *mapping == 1, *any == 1],
            purpose,
            is_purpose_of_all: *of_all == 1,
        };
        Ok(Some((case, rest)))
    }
}

fn split_time(octets: &[u8]) -> Option<(DateTime, &[u8])> {
    match octets {
        [high, low, month, day, hour, minute, second, rest @ ..] => {
            let year = u16::from_be_bytes([*high, *low]);
            let time = DateTime {
                year,
                month: *month,
                day: *day,
                hour: *hour,
                minute: *minute,
                second: *second,
            };
            Some((time, rest))
        }
        _ => None,
    }
}

// As many strings of octets as a number before them says.
fn split_list(alloc: Global, octets: &[u8]) -> Result<Option<(Vec<&[u8]>, &[u8])>, AllocError> {
    let Some((count, mut rest)) = split_number(octets) else {
        return Ok(None);
    };
    let mut found = Vec::new(alloc);
    for _ in 0..count {
        match split_counted(rest) {
            Some((item, after)) => {
                found.push(item)?;
                rest = after;
            }
            None => return Ok(None),
        }
    }
    Ok(Some((found, rest)))
}

// So many octets as a number before them says.
fn split_counted(octets: &[u8]) -> Option<(&[u8], &[u8])> {
    let (count, rest) = split_number(octets)?;
    rest.split_at_checked(count as usize)
}

fn split_number(octets: &[u8]) -> Option<(u32, &[u8])> {
    match octets {
        [a, b, c, d, rest @ ..] => Some((u32::from_be_bytes([*a, *b, *c, *d]), rest)),
        _ => None,
    }
}
