//! Orders of lengths.
use super::*;
use crate::checks::{same, same_at};

/// Ascending numbers at the limits of the forms of lengths (X.690 8.1.3).
const ASCENDING: [u32; 12] = [
    0, 1, 127, 128, 255, 256, 65535, 65536, 16777215, 16777216, 4294967294, 4294967295,
];

fn order(this: Length, that: Length) -> Result<Ordering, Error> {
    this.der_cmp(&that)
}

#[test]
fn lengths_ascend(rt: HostRuntime) {
    for i in 0..ASCENDING.len() {
        for j in 0..ASCENDING.len() {
            let (this, that) = (Length::new(ASCENDING[i]), Length::new(ASCENDING[j]));
            same_at(&rt, i, order(this, that), Ok(i.cmp(&j)));
        }
    }
}

#[test]
fn length_one_is_between_zero_and_the_longest(rt: HostRuntime) {
    let rows = [
        (Length::MAX, Ordering::Less),
        (Length::new(1), Ordering::Equal),
        (Length::ZERO, Ordering::Greater),
    ];
    for (that, answer) in rows {
        same_at(&rt, that, order(Length::ONE, that), Ok(answer));
    }
}

#[test]
fn the_indefinite_form_plays_no_part(rt: HostRuntime) {
    let definite = Length::new(2);
    let indefinite = Length::new_indefinite(2);
    same(&rt, definite == indefinite, false);
    same(&rt, definite.cmp(&indefinite), Ordering::Less);
    same(&rt, order(definite, indefinite), Ok(Ordering::Equal));
    let three = Length::new(3);
    same(&rt, order(indefinite, three), Ok(Ordering::Less));
    same(&rt, order(three, indefinite), Ok(Ordering::Greater));
}
