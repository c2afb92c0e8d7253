//! Orders of lists.
use super::*;
use crate::checks::same;

fn order(these: &[BorrowedOctets<'_>], those: &[BorrowedOctets<'_>]) -> Result<Ordering, Error> {
    iter_cmp(these.iter(), those.iter())
}

fn order_of_copies(
    these: &[BorrowedOctets<'_>],
    those: &[BorrowedOctets<'_>],
) -> Result<Ordering, Error> {
    iter_cmp_owned(these.iter().copied(), those.iter().copied())
}

#[test]
fn the_first_difference_decides(rt: HostRuntime) -> Result<(), Fail> {
    let one = [borrowed(&[0x01])?];
    let two = [borrowed(&[0x01])?, borrowed(&[0x00])?];
    same(&rt, order(&one, &two), Ok(Ordering::Less));
    same(&rt, order(&two, &one), Ok(Ordering::Greater));
    let later = [borrowed(&[0x02])?];
    let longer = [borrowed(&[0x01])?, borrowed(&[0xFF])?];
    same(&rt, order(&later, &longer), Ok(Ordering::Greater));
    same(&rt, order(&longer, &later), Ok(Ordering::Less));
    same(&rt, order(&two, &longer), Ok(Ordering::Less));
    same(&rt, order(&longer, &longer), Ok(Ordering::Equal));
    Ok(())
}

#[test]
fn the_first_difference_of_owned_values_decides(rt: HostRuntime) -> Result<(), Fail> {
    let one = [borrowed(&[0x01])?];
    let two = [borrowed(&[0x01])?, borrowed(&[0x00])?];
    same(&rt, order_of_copies(&one, &two), Ok(Ordering::Less));
    same(&rt, order_of_copies(&two, &one), Ok(Ordering::Greater));
    let later = [borrowed(&[0x02])?];
    let longer = [borrowed(&[0x01])?, borrowed(&[0xFF])?];
    same(&rt, order_of_copies(&later, &longer), Ok(Ordering::Greater));
    same(&rt, order_of_copies(&longer, &longer), Ok(Ordering::Equal));
    Ok(())
}

#[test]
fn an_empty_list_is_equal_to_another_and_less_than_any_other(rt: HostRuntime) -> Result<(), Fail> {
    let some = [borrowed(&[])?];
    same(&rt, order(&[], &[]), Ok(Ordering::Equal));
    same(&rt, order(&[], &some), Ok(Ordering::Less));
    same(&rt, order(&some, &[]), Ok(Ordering::Greater));
    same(&rt, order_of_copies(&[], &some), Ok(Ordering::Less));
    Ok(())
}

#[test]
fn lists_of_nothing_are_ordered_by_their_number(rt: HostRuntime) {
    let one = [PhantomData::<u8>];
    let two = [PhantomData::<u8>, PhantomData::<u8>];
    same(&rt, iter_cmp(one.iter(), two.iter()), Ok(Ordering::Less));
    same(&rt, iter_cmp(two.iter(), one.iter()), Ok(Ordering::Greater));
    same(&rt, iter_cmp(two.iter(), two.iter()), Ok(Ordering::Equal));
}

#[test]
fn tags_are_items_too(rt: HostRuntime) {
    let sequence = [Tag::Integer, Tag::Sequence];
    let text = [Tag::Integer, Tag::Ia5String, Tag::Null];
    same(
        &rt,
        iter_cmp(sequence.iter(), text.iter()),
        Ok(Ordering::Greater),
    );
    same(
        &rt,
        iter_cmp(text.iter(), sequence.iter()),
        Ok(Ordering::Less),
    );
}
