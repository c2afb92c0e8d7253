//! Orders of headers.
use super::*;
use crate::checks::{same, same_at};

fn order(this: Header, that: Header) -> Result<Ordering, Error> {
    this.der_cmp(&that)
}

#[test]
fn tags_decide_before_lengths(rt: HostRuntime) {
    let ascending = [
        Header::new(Tag::Integer, Length::new(1)),
        Header::new(Tag::Integer, Length::new(127)),
        Header::new(Tag::Integer, Length::new(128)),
        Header::new(Tag::OctetString, Length::ZERO),
        Header::new(Tag::OctetString, Length::MAX),
        Header::new(Tag::Ia5String, Length::new(5)),
        Header::new(Tag::Sequence, Length::ZERO),
    ];
    for i in 0..ascending.len() {
        for j in 0..ascending.len() {
            same_at(&rt, i, order(ascending[i], ascending[j]), Ok(i.cmp(&j)));
        }
    }
}

#[test]
fn flag_and_bit_play_no_part(rt: HostRuntime) {
    let primitive = Header::new(Tag::OctetString, Length::new(2));
    let constructed = Header::new(Tag::OctetString, Length::new_indefinite(2));
    same(&rt, primitive == constructed, false);
    same(&rt, order(primitive, constructed), Ok(Ordering::Equal));
    let definite = constructed.with_length(Length::new(3));
    same(&rt, definite.is_constructed(), true);
    same(&rt, order(definite, primitive), Ok(Ordering::Greater));
}
