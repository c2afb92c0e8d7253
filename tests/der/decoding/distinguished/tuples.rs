//! Tuples of three to twelve values in sequence.
use super::*;
use crate::checks::{same, same_octets};
use std::process::Abort;

type Month = MyByteMonth;

// The octets of twelve months with the numbers 0 to 11, as MyByteMonth writes them: X.690 8.7.
static MONTHS: [u8; 36] = [
    4, 1, 0, 4, 1, 1, 4, 1, 2, 4, 1, 3, 4, 1, 4, 4, 1, 5, 4, 1, 6, 4, 1, 7, 4, 1, 8, 4, 1, 9, 4, 1, 10,
    4, 1, 11,
];

// Reads the first months as one value, and checks what is written of it, and its length.
fn months_of<T: Decode<SliceReader<'static>, Error = Error> + Encode>(
    rt: &impl Abort,
    alloc: Global,
    count: usize,
) -> Result<T, Fail> {
    let octets = MONTHS.get(..3 * count).unwrap_or(&[]);
    let value: T = value_of(alloc, octets)?;
    same(rt, value.encoded_len(), Length::new_usize(octets.len()));
    let der = der_of(alloc, &value)?;
    same_octets(rt, der.as_slice(), octets);
    Ok(value)
}

#[test]
fn tuples_of_three_to_six_are_read_and_written(rt: HostRuntime) -> Result<(), Fail> {
    let value: (Month, Month, Month) = months_of(&rt, rt.alloc(), 3)?;
    same(&rt, (value.1.month(), value.2.month()), (1, 2));
    let value: (Month, Month, Month, Month) = months_of(&rt, rt.alloc(), 4)?;
    same(&rt, (value.2.month(), value.3.month()), (2, 3));
    let value: (Month, Month, Month, Month, Month) = months_of(&rt, rt.alloc(), 5)?;
    same(&rt, (value.3.month(), value.4.month()), (3, 4));
    let value: (Month, Month, Month, Month, Month, Month) = months_of(&rt, rt.alloc(), 6)?;
    same(&rt, (value.4.month(), value.5.month()), (4, 5));
    Ok(())
}

#[test]
fn tuples_of_seven_to_nine_are_read_and_written(rt: HostRuntime) -> Result<(), Fail> {
    let value: (Month, Month, Month, Month, Month, Month, Month) = months_of(&rt, rt.alloc(), 7)?;
    same(&rt, (value.3.month(), value.4.month()), (3, 4));
    let value: (Month, Month, Month, Month, Month, Month, Month, Month) = months_of(&rt, rt.alloc(), 8)?;
    same(&rt, (value.4.month(), value.7.month()), (4, 7));
    let value: (Month, Month, Month, Month, Month, Month, Month, Month, Month) = months_of(&rt, rt.alloc(), 9)?;
    same(&rt, (value.5.month(), value.8.month()), (5, 8));
    Ok(())
}

type TenMonths = (Month, Month, Month, Month, Month, Month, Month, Month, Month, Month);

type ElevenMonths = (Month, Month, Month, Month, Month, Month, Month, Month, Month, Month, Month);

type TwelveMonths =
    (Month, Month, Month, Month, Month, Month, Month, Month, Month, Month, Month, Month);

#[test]
fn tuples_of_ten_to_twelve_are_read_and_written(rt: HostRuntime) -> Result<(), Fail> {
    let value: TenMonths = months_of(&rt, rt.alloc(), 10)?;
    same(&rt, (value.5.month(), value.9.month()), (5, 9));
    let value: ElevenMonths = months_of(&rt, rt.alloc(), 11)?;
    same(&rt, (value.6.month(), value.10.month()), (6, 10));
    let value: TwelveMonths = months_of(&rt, rt.alloc(), 12)?;
    same(&rt, (value.6.month(), value.11.month()), (6, 11));
    Ok(())
}

#[test]
fn a_tuple_that_is_cut_off_is_refused_at_its_end(rt: HostRuntime) -> Result<(), Fail> {
    let octets = MONTHS.get(..8).unwrap_or(&[]);
    let refused = refusal_of::<(Month, Month, Month)>(rt.alloc(), octets);
    same(&rt, refused, Some(incomplete(9, 8, 8)));
    Ok(())
}
