//! Orders of tags.
use super::*;
use crate::checks::{holds, same, same_at};
use crate::fixtures::encodings::tags;

fn application(constructed: bool, number: u32) -> Tag {
    TagNumber::new(number).application(constructed)
}

fn context(constructed: bool, number: u32) -> Tag {
    TagNumber::new(number).context_specific(constructed)
}

fn order(this: Tag, that: Tag) -> Result<Ordering, Error> {
    this.der_cmp(&that)
}

#[test]
fn tags_ascend(rt: HostRuntime) {
    let rows = tags();
    for i in 0..rows.len() {
        for j in 0..rows.len() {
            let (this, octets) = rows[i];
            let (that, others) = rows[j];
            same_at(&rt, i, order(this, that), Ok(i.cmp(&j)));
            same_at(&rt, j, octets.cmp(others), i.cmp(&j));
        }
    }
}

#[test]
fn tag_order_is_not_numeric(rt: HostRuntime) {
    let (less, more) = (context(false, 16383), context(false, 16384));
    same(&rt, order(less, more), Ok(Ordering::Greater));
    same(&rt, less.cmp(&more), Ordering::Less);
}

#[test]
fn tags_have_another_order_too(rt: HostRuntime) {
    let derived = Tag::Sequence.cmp(&Tag::Ia5String);
    let written = order(Tag::Sequence, Tag::Ia5String);
    same(&rt, written, Ok(Ordering::Greater));
    same(&rt, derived, Ordering::Less);
    holds(&rt, application(true, 0) > application(false, 1));
    let (constructed, primitive) = (application(true, 0), application(false, 1));
    same(&rt, order(constructed, primitive), Ok(Ordering::Greater));
    same(&rt, order(primitive, constructed), Ok(Ordering::Less));
}
