//! The errors of a comparison, and when they occur.

use super::*;
use crate::checks::same;
use test_fixtures::ranked::Ranked;

fn reporting(tag: Tag, answer: Result<Ordering, Error>) -> Ranked {
    Ranked {
        tag,
        size: Ok(()),
        order: answer,
    }
}

// A value whose header fails at this position.
fn refused(tag: Tag, position: u32) -> Ranked {
    Ranked {
        tag,
        size: Err(ErrorKind::Overflow.at(Length::new(position))),
        order: Ok(Ordering::Equal),
    }
}

fn order(this: &Ranked, that: &Ranked) -> Result<Ordering, Error> {
    this.der_cmp(that)
}

fn order_of_lists(these: &[Ranked], those: &[Ranked]) -> Result<Ordering, Error> {
    iter_cmp(these.iter(), those.iter())
}

#[test]
fn the_first_header_is_refused_first(rt: HostRuntime) {
    let (first, second) = (refused(Tag::Null, 1), refused(Tag::Integer, 2));
    let fine = reporting(Tag::Set, Ok(Ordering::Equal));
    let overflow = |position| Err(ErrorKind::Overflow.at(Length::new(position)));
    same(&rt, order(&first, &second), overflow(1));
    same(&rt, order(&second, &first), overflow(2));
    same(&rt, order(&first, &fine), overflow(1));
    same(&rt, order(&fine, &second), overflow(2));
}

#[test]
fn contents_are_compared_after_equal_headers(rt: HostRuntime) {
    let wrong = Err(Tag::Null.value_error().to_error());
    let (null, set) = (reporting(Tag::Null, wrong), reporting(Tag::Set, wrong));
    same(&rt, order(&null, &set), Ok(Ordering::Less));
    same(&rt, order(&set, &null), Ok(Ordering::Greater));
    same(&rt, order(&null, &null), wrong);
    let greater = reporting(Tag::Null, Ok(Ordering::Greater));
    same(&rt, order(&greater, &null), Ok(Ordering::Greater));
}

#[test]
fn the_first_refused_item_decides(rt: HostRuntime) {
    let wrong = Err(Tag::Null.value_error().to_error());
    let (fails, equal) = (
        reporting(Tag::Null, wrong),
        reporting(Tag::Null, Ok(Ordering::Equal)),
    );
    let less = reporting(Tag::Null, Ok(Ordering::Less));
    let fine = [equal, equal, equal];
    same(&rt, order_of_lists(&[equal, fails, less], &fine), wrong);
    let answer = order_of_lists(&[equal, less, fails], &fine);
    same(&rt, answer, Ok(Ordering::Less));
    let answer = order_of_lists(&[equal], &[fails, fails]);
    same(&rt, answer, Ok(Ordering::Less));
    let answer = iter_cmp_owned([equal, fails].iter().copied(), fine.iter().copied());
    same(&rt, answer, wrong);
}
