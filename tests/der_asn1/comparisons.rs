//! Equality and order of values that borrow their octets. The orders are worked out by hand from
//! X.690 11.6: the identifier octets decide first, then the length, then the contents.
use crate::checks::{holds_at, same_at};
use der::{DerOrd, Error, Tag, TagNumber, iter_cmp};
use der_asn1::{
    AnyRef, Explicit, Implicit, IntRef, IntegerOf, ObjectIdentifierRef, OctetStringRef, SequenceOf,
    SetOf,
};
use std::alloc::Global;
use std::cmp::Ordering;

// Contents of OCTET STRINGs whose encodings ascend.
const ASCENDING: [&[u8]; 6] = [
    &[],
    &[0x00],
    &[0xFF],
    &[0x00, 0x00],
    &[0x00, 0x01],
    &[0x01, 0x00],
];

#[test]
fn checked_octets_ascend_as_encoded(rt: HostRuntime) {
    let values = ASCENDING.map(OctetStringRef::new);
    for (i, this) in values.iter().enumerate() {
        for (j, that) in values.iter().enumerate() {
            if let (Some(this), Some(that)) = (this, that) {
                same_at(&rt, i, this.der_cmp(that), Ok(i.cmp(&j)));
                same_at(&rt, i, this == that, i == j);
            }
            holds_at(&rt, i, this.is_some());
        }
    }
}

#[test]
fn the_tag_of_an_element_decides_first(rt: HostRuntime) {
    let any = |tag, contents| AnyRef { tag, contents };
    let own = |number| TagNumber(number).context_specific(false);
    let ascending: [AnyRef<'_>; 7] = [
        any(Tag::Integer, &[0x00, 0x80]),
        any(Tag::OctetString, &[0x7F]),
        any(Tag::OctetString, &[0x80]),
        any(Tag::OctetString, &[0x00, 0x00]),
        any(Tag::Sequence, &[]),
        any(own(1), &[0xFF]),
        any(own(2), &[]),
    ];
    for (i, this) in ascending.iter().enumerate() {
        for (j, that) in ascending.iter().enumerate() {
            same_at(&rt, i, this.der_cmp(that), Ok(i.cmp(&j)));
            same_at(&rt, i, this == that, i == j);
        }
    }
}

// A list with these contents, and a set.
fn list<'a>(alloc: Global, contents: &'a [u8]) -> Result<SequenceOf<'a, IntRef<'a>>, Error> {
    SequenceOf::new(alloc, contents)
}

fn set<'a>(alloc: Global, contents: &'a [u8]) -> Result<SetOf<'a, IntRef<'a>>, Error> {
    SetOf::new(alloc, contents)
}

// Contents of lists of INTEGERs, each in order, whose encodings ascend.
const LISTS: [&[u8]; 5] = [
    &[],
    &[2, 1, 5],
    &[2, 1, 6],
    &[2, 1, 5, 2, 1, 6],
    &[2, 1, 6, 2, 1, 6],
];

#[test]
fn lists_are_compared_by_the_encodings_of_their_items(rt: HostRuntime) -> Result<(), Error> {
    let alloc = rt.alloc();
    for i in 0..LISTS.len() {
        for j in 0..LISTS.len() {
            let (this, that) = (list(alloc, LISTS[i])?, list(alloc, LISTS[j])?);
            same_at(&rt, i, this.der_cmp(&that), Ok(i.cmp(&j)));
            same_at(&rt, i, this == that, i == j);
            let (this, that) = (set(alloc, LISTS[i])?, set(alloc, LISTS[j])?);
            same_at(&rt, i, this.der_cmp(&that), Ok(i.cmp(&j)));
            same_at(&rt, i, this == that, i == j);
        }
    }
    Ok(())
}

#[test]
fn iterators_of_values_are_compared_pair_by_pair(rt: HostRuntime) {
    let one: [Option<IntRef<'_>>; 1] = [IntRef::new(&[0x05])];
    let two: [Option<IntRef<'_>>; 2] = [IntRef::new(&[0x05]), IntRef::new(&[0x80])];
    let larger: [Option<IntRef<'_>>; 1] = [IntRef::new(&[0x06])];
    let compare = |these: &[Option<IntRef<'_>>], those: &[Option<IntRef<'_>>]| iter_cmp(
        these.iter().flatten(),
        those.iter().flatten(),
    );
    same_at(&rt, 0, compare(&one, &two), Ok(Ordering::Less));
    same_at(&rt, 1, compare(&larger, &two), Ok(Ordering::Greater));
    same_at(&rt, 2, compare(&two, &two), Ok(Ordering::Equal));
}

// The numbers in the order of their encodings: fewer contents octets first, then octet by octet.
#[test]
fn tagged_numbers_ascend_as_encoded(rt: HostRuntime) {
    let ascending = [0i64, 1, 127, -128, -1, 128, 256, -32768];
    for (i, this) in ascending.iter().enumerate() {
        for (j, that) in ascending.iter().enumerate() {
            let (this, that) = (IntegerOf { number: *this }, IntegerOf { number: *that });
            same_at(&rt, i, this.der_cmp(&that), Ok(i.cmp(&j)));
            let (outer, other): (Explicit<_, 1>, Explicit<_, 1>) = (Explicit(this), Explicit(that));
            same_at(&rt, i, outer.der_cmp(&other), Ok(i.cmp(&j)));
            same_at(&rt, i, outer == other, i == j);
            let (inner, other): (Implicit<_, 1>, Implicit<_, 1>) = (Implicit(this), Implicit(that));
            same_at(&rt, i, inner.der_cmp(&other), Ok(i.cmp(&j)));
            same_at(&rt, i, inner == other, i == j);
        }
    }
}

#[test]
fn a_clone_of_arcs_goes_on_alone(rt: HostRuntime) {
    let arcs = ObjectIdentifierRef::new(&[0x2A, 0x86, 0x48]).map(|it| it.arcs());
    if let Some(mut arcs) = arcs {
        same_at(&rt, 0, arcs.next(), Some(Some(1)));
        if let Ok(mut clone) = arcs.clone() {
            same_at(&rt, 1, clone.next(), Some(Some(2)));
            same_at(&rt, 2, clone.next(), Some(Some(840)));
        }
        same_at(&rt, 3, arcs.next(), Some(Some(2)));
    }
}
