//! Cases.
use std::str::from_utf8;

/// Octets and a type.
#[derive(Clone, Copy)]
pub struct Case<'a> {
    /// The name of the type.
    pub kind: &'a str,
    /// Its node in the table.
    pub node: u32,
    /// Its node in the plain table.
    pub plain: u32,
    /// The octets.
    pub octets: &'a [u8],
}

impl<'a> Case<'a> {
    /// The case at the front, and what follows. `None` at the end.
    pub fn split(octets: &'a [u8]) -> Option<(Self, &'a [u8])> {
        let (kind, rest) = split_counted(octets)?;
        let (node, rest) = split_number(rest)?;
        let (plain, rest) = split_number(rest)?;
        let (octets, rest) = split_counted(rest)?;
        let kind = from_utf8(kind).ok()?;
        Some((
            Case {
                kind,
                node,
                plain,
                octets,
            },
            rest,
        ))
    }
}

// So many octets as a number before them says.
fn split_counted(octets: &[u8]) -> Option<(&[u8], &[u8])> {
    let (count, rest) = split_number(octets)?;
    rest.split_at_checked(count as usize)
}

fn split_number(octets: &[u8]) -> Option<(u32, &[u8])> {
    match octets {
        [a, b, c, d, rest @ ..] => Some((u32::from_be_bytes([*a, *b, *c, *d]), rest)),
        _ => None,
    }
}
