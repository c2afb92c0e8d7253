//! Answers of the reader of values.

use schema_types::{NodeKind, Schema};
use schema_read::{Departure, Rule, Tree};
use std::fmt;

/// What the reader says of octets.
#[derive(Clone, Copy)]
pub struct Answer {
    /// The first departure that is not inside a value of any type: compiled types take these
    /// without looking into them.
    first: Option<Departure>,
    /// How many departures there are inside such values.
    inside: usize,
    /// The least offset of all departures.
    least: Option<usize>,
}

impl Answer {
    pub fn of(schema: &Schema<'_>, tree: &Tree) -> Self {
        let (mut first, mut inside, mut least) = (None, 0usize, None);
        for departure in tree.departures.iter() {
            least = match least {
                Some(least) if least <= departure.offset => Some(least),
                _ => Some(departure.offset),
            };
            if is_inside(schema, tree, departure) {
                inside = inside.saturating_add(1);
            } else if first.is_none() {
                first = Some(*departure);
            }
        }
        Answer {
            first,
            inside,
            least,
        }
    }
}

// Whether a departure is inside a value of any type, or of a SEQUENCE without known components.
fn is_inside(schema: &Schema<'_>, tree: &Tree, departure: &Departure) -> bool {
    let mut index = departure.node;
    while let Some(entry) = tree.entries.get(index) {
        if entry.kind < schema.counts().nodes {
            let is_own = index == departure.node && departure.offset == entry.offset;
            let node = schema.node(entry.kind);
            let is_untyped = matches!(node.kind, NodeKind::Any | NodeKind::Open)
                || node.extensible && node.parts.count == 0;
            return is_untyped
                && (!is_own || matches!(departure.rule, Rule::Form | Rule::Contents(_)));
        }
        if index == entry.parent {
            return false;
        }
        index = entry.parent;
    }
    false
}

impl fmt::Display for Answer {
    fn fmt<W: fmt::Write>(&self, f: &mut fmt::Formatter<W>) -> fmt::Result {
        match self.least {
            Some(least) => write!(f, "{least} {} ", self.inside)?,
            None => write!(f, "- 0 ")?,
        }
        match self.first {
            Some(first) => write!(f, "{:?}", first.rule),
            None => write!(f, "ok"),
        }
    }
}
