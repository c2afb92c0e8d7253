//! Lengths.
use crate::checks::{holds, same, same_at};
use der::{Error, ErrorKind, Length, Result, Tag, TagNumber};
use std::cmp::Ordering;
use std::hash::{DefaultHasher, Hash, Hasher};
use std::test::Fail;

fn overflow() -> Error {
    ErrorKind::Overflow.to_error()
}

#[test]
fn lengths_are_made_from_numbers_up_to_4294967295(rt: HostRuntime) {
    same(&rt, Length::default(), Length::ZERO);
    same(&rt, Length::from(0u8), Length::ZERO);
    same(&rt, Length::from(1u16), Length::ONE);
    same(&rt, Length::from(4294967295u32), Length::MAX);
    same(&rt, Length::new_usize(4294967295), Ok(Length::MAX));
    same(&rt, Length::new_usize(4294967296), Err(overflow()));
    same(&rt, Length::try_from(5usize), Ok(Length::new(5)));
    same(&rt, Length::try_from(4294967296usize), Err(overflow()));
    same(&rt, u32::from(Length::new_indefinite(5)), 5);
    same(&rt, usize::try_from(Length::MAX), Ok(4294967295usize));
}

#[test]
fn the_flag_is_kept_apart(rt: HostRuntime) {
    holds(&rt, Length::new(2) != Length::new_indefinite(2));
    holds(&rt, Length::new_indefinite(2).is_indefinite());
    holds(&rt, !Length::new(2).is_indefinite());
    holds(&rt, Length::new_indefinite(0).is_zero());
    holds(&rt, Length::ZERO.is_zero());
    holds(&rt, !Length::ONE.is_zero());
    same(
        &rt,
        Length::new_indefinite(9).sans_eoc(),
        Length::new_indefinite(7),
    );
    same(
        &rt,
        Length::new_indefinite(1).sans_eoc(),
        Length::new_indefinite(0),
    );
    same(
        &rt,
        Length::new_indefinite(0).sans_eoc(),
        Length::new_indefinite(0),
    );
    same(&rt, Length::new(9).sans_eoc(), Length::new(9));
}

#[test]
fn lengths_are_ordered_by_number_then_flag(rt: HostRuntime) {
    let ascending = [Length::new(2), Length::new_indefinite(2), Length::new(3)];
    same(&rt, ascending[0].cmp(&ascending[1]), Ordering::Less);
    same(&rt, ascending[1].cmp(&ascending[2]), Ordering::Less);
    same(&rt, ascending[2].cmp(&ascending[0]), Ordering::Greater);
    same(
        &rt,
        ascending[1].partial_cmp(&ascending[1]),
        Some(Ordering::Equal),
    );
}

#[test]
fn sums_and_differences_are_exact_refused_or_saturated(rt: HostRuntime) {
    same(&rt, Length::MAX + Length::ONE, Err(overflow()));
    same(&rt, Length::new(3) - Length::new(5), Err(overflow()));
    same(&rt, Length::ONE + 4294967296usize, Err(overflow()));
    same(
        &rt,
        Length::new_indefinite(3) + Length::new_indefinite(4),
        Ok(Length::new(7)),
    );
    same(&rt, Length::ONE + 255u8, Ok(Length::new(256)));
    same(&rt, Length::ONE + 65535u16, Ok(Length::new(65536)));
    same(&rt, Length::ONE + 4294967294u32, Ok(Length::MAX));
    same(&rt, Length::ONE + 4294967295u32, Err(overflow()));
    same(&rt, Length::ONE + 4294967294usize, Ok(Length::MAX));
    same(
        &rt,
        Length::new_indefinite(5) - Length::new(3),
        Ok(Length::new(2)),
    );
    same(&rt, Length::MAX.saturating_add(Length::ONE), Length::MAX);
    same(
        &rt,
        Length::ONE.saturating_add(Length::new_indefinite(1)),
        Length::new(2),
    );
    same(&rt, Length::ONE.saturating_sub(Length::MAX), Length::ZERO);
    same(
        &rt,
        Length::new_indefinite(5).saturating_sub(Length::new(3)),
        Length::new(2),
    );
}

#[test]
fn a_given_error_is_forwarded(rt: HostRuntime) {
    let given: Result<Length> = Err(ErrorKind::Failed.at(Length::ONE));
    same(&rt, given + Length::ONE, given);
    same(&rt, given - Length::ONE, given);
    same(
        &rt,
        (Length::ONE + Length::ONE) + Length::ONE,
        Ok(Length::new(3)),
    );
    same(
        &rt,
        (Length::ONE + Length::ONE) - Length::ONE,
        Ok(Length::ONE),
    );
    same(
        &rt,
        (Length::ONE + Length::ONE) - Length::MAX,
        Err(overflow()),
    );
}

/// X.690 8.1.3.4 and 8.1.3.5: one octet to 127, then one more for each further base-256 digit.
#[test]
fn for_tlv_adds_the_octets_of_tag_and_length_or_overflows(rt: HostRuntime) {
    for (contents, whole) in [
        (0, 2),
        (127, 129),
        (128, 131),
        (255, 258),
        (256, 260),
        (65535, 65539),
        (65536, 65541),
        (16777215, 16777220),
        (16777216, 16777222),
        (4294967289, 4294967295),
    ] {
        let answer = Length::new(contents).for_tlv(Tag::Integer);
        same_at(&rt, contents, answer, Ok(Length::new(whole)));
    }
    same(
        &rt,
        Length::new(4294967290).for_tlv(Tag::Integer),
        Err(overflow()),
    );
    same(
        &rt,
        Length::new(256).for_tlv(Tag::Sequence),
        Ok(Length::new(260)),
    );
    same(
        &rt,
        Length::new_indefinite(0).for_tlv(Tag::Null),
        Ok(Length::new(2)),
    );
}

/// X.690 8.1.2.2 and 8.1.2.4: one octet to 30, then one more for each base-128 digit.
#[test]
fn for_tlv_adds_an_octet_for_each_digit_of_a_long_tag_number(rt: HostRuntime) {
    for (number, whole) in [
        (30, 2),
        (31, 3),
        (127, 3),
        (128, 4),
        (16383, 4),
        (16384, 5),
        (2097151, 5),
        (2097152, 6),
        (268435455, 6),
        (268435456, 7),
        (4294967295, 7),
    ] {
        let tag = TagNumber::new(number).private(true);
        same_at(
            &rt,
            number,
            Length::ZERO.for_tlv(tag),
            Ok(Length::new(whole)),
        );
    }
}

#[test]
fn lengths_are_printed_as_their_number_or_flag(rt: HostRuntime) -> std::result::Result<(), Fail> {
    let indefinite = Length::new_indefinite(5);
    for (length, text) in [(indefinite, "5"), (Length::MAX, "4294967295")] {
        same(&rt, length.to_string(rt.alloc())?.as_str(), text);
    }
    for (length, text) in [
        (Length::new(5), "Length(5)"),
        (indefinite, "Length([indefinite])"),
    ] {
        same(&rt, format!(in rt.alloc(); "{length:?}")?.as_str(), text);
    }
    Ok(())
}

fn hashed(length: Length) -> u64 {
    let mut hasher = DefaultHasher::new();
    length.hash(&mut hasher);
    hasher.finish()
}

#[test]
fn equal_lengths_hash_equally(rt: HostRuntime) {
    same(&rt, hashed(Length::new(2)), hashed(Length::from(2u8)));
    assert_ne!(rt; hashed(Length::new(2)), hashed(Length::new_indefinite(2)));
}
