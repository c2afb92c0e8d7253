//! UTCTime and GeneralizedTime. The times of X.690 11.8.3 and 11.7.5 are rows here.
use crate::checks::{holds, same_at};
use der::{Decode, Encode, Error, ErrorKind, Length, Reader, ReaderExt, SliceReader, Tag};
use der_asn1::{Choice, DateTime, GeneralizedTime, UtcTime, lawful_from_der};
use std::alloc::Global;

// The UTCTime in this element, and whether it is written exactly as it was read.
fn reported_utc(alloc: Global, octets: &[u8]) -> Result<(DateTime, bool), Error> {
    let value: UtcTime = lawful_from_der(alloc, octets)?;
    let written = value.to_der(alloc)?;
    Ok((value.date_time(), written.as_slice() == octets))
}

// The same for a GeneralizedTime.
fn reported_generalized(alloc: Global, octets: &[u8]) -> Result<(DateTime, bool), Error> {
    let value: GeneralizedTime = lawful_from_der(alloc, octets)?;
    let written = value.to_der(alloc)?;
    Ok((value.date_time(), written.as_slice() == octets))
}

// The result for this day and time.
fn read(date: (u16, u8, u8), time: (u8, u8, u8)) -> Result<(DateTime, bool), Error> {
    let (year, month, day) = date;
    let (hour, minute, second) = time;
    Ok((
        DateTime {
            year,
            month,
            day,
            hour,
            minute,
            second,
        },
        true,
    ))
}

// The error for the contents, at the position after their last octet.
fn refused(tag: Tag, octets: &[u8]) -> Result<(DateTime, bool), Error> {
    let end = Length::new_usize(octets.len())?;
    Err(ErrorKind::Value { tag }.at(end))
}

#[test]
fn utc_times(rt: HostRuntime) {
    let rows: [(&[u8], Result<(DateTime, bool), Error>); 6] = [
        (b"\x17\x0D920521000000Z", read((1992, 5, 21), (0, 0, 0))),
        (b"\x17\x0D920622123421Z", read((1992, 6, 22), (12, 34, 21))),
        (b"\x17\x0D920722132100Z", read((1992, 7, 22), (13, 21, 0))),
        (b"\x17\x0D500101000000Z", read((1950, 1, 1), (0, 0, 0))),
        (b"\x17\x0D491231235959Z", read((2049, 12, 31), (23, 59, 59))),
        (b"\x17\x0D000229000000Z", read((2000, 2, 29), (0, 0, 0))),
    ];
    for (row, (octets, expected)) in rows.into_iter().enumerate() {
        same_at(&rt, row, reported_utc(rt.alloc(), octets), expected);
    }
}

#[test]
fn octets_that_are_no_utc_time(rt: HostRuntime) {
    let rows: [&[u8]; 16] = [
        b"\x17\x0D920520240000Z",
        b"\x17\x0B9207221321Z",
        b"\x17\x0C920521000000",
        b"\x17\x0D9205210000000",
        b"\x17\x0D920521000000z",
        b"\x17\x11920521000000+0000",
        b"\x17\x0D92052100000 Z",
        b"\x17\x0D920521000:00Z",
        b"\x17\x0D920521006000Z",
        b"\x17\x0D920521000060Z",
        b"\x17\x0D920021000000Z",
        b"\x17\x0D921321000000Z",
        b"\x17\x0D920500000000Z",
        b"\x17\x0D920431000000Z",
        b"\x17\x0D010229000000Z",
        b"\x17\x00",
    ];
    for (row, octets) in rows.into_iter().enumerate() {
        let expected = refused(Tag::UtcTime, octets);
        same_at(&rt, row, reported_utc(rt.alloc(), octets), expected);
    }
}

#[test]
fn generalized_times(rt: HostRuntime) {
    let rows: [(&[u8], Result<(DateTime, bool), Error>); 5] = [
        (b"\x18\x0F19920521000000Z", read((1992, 5, 21), (0, 0, 0))),
        (
            b"\x18\x0F19920622123421Z",
            read((1992, 6, 22), (12, 34, 21)),
        ),
        (b"\x18\x0F00000229000000Z", read((0, 2, 29), (0, 0, 0))),
        (
            b"\x18\x0F20000229235959Z",
            read((2000, 2, 29), (23, 59, 59)),
        ),
        (
            b"\x18\x0F99991231235959Z",
            read((9999, 12, 31), (23, 59, 59)),
        ),
    ];
    for (row, (octets, expected)) in rows.into_iter().enumerate() {
        same_at(&rt, row, reported_generalized(rt.alloc(), octets), expected);
    }
}

#[test]
fn octets_that_are_no_generalized_time(rt: HostRuntime) {
    let rows: [&[u8]; 8] = [
        b"\x18\x0F19920520240000Z",
        b"\x18\x1119920722132100.3Z",
        b"\x18\x1119920722132100.0Z",
        b"\x18\x0D199207221321Z",
        b"\x18\x0D920521000000Z",
        b"\x18\x0F19000229000000Z",
        b"\x18\x0F20010229000000Z",
        b"\x18\x0F1992O521000000Z",
    ];
    for (row, octets) in rows.into_iter().enumerate() {
        let expected = refused(Tag::GeneralizedTime, octets);
        same_at(&rt, row, reported_generalized(rt.alloc(), octets), expected);
    }
}

// A Time of RFC 5280, 4.1: the tag determines which of the two types it is.
fn time<'a>(alloc: Global, octets: &'a [u8]) -> Result<DateTime, Error> {
    let mut reader = SliceReader::new(octets)?;
    if <UtcTime as Choice>::can_decode(reader.peek_tag()?) {
        let time = UtcTime::decode(alloc, &mut reader)?;
        return Ok(time.date_time());
    }
    let time = GeneralizedTime::decode(alloc, &mut reader)?;
    Ok(time.date_time())
}

#[test]
fn the_tag_determines_the_form_of_a_time(rt: HostRuntime) {
    let expected = DateTime {
        year: 2049,
        month: 12,
        day: 31,
        hour: 23,
        minute: 59,
        second: 58,
    };
    let rows: [(&[u8], bool); 3] = [
        (b"\x17\x0D491231235958Z", true),
        (b"\x18\x0F20491231235958Z", true),
        (b"\x16\x0D491231235958Z", false),
    ];
    for (row, (octets, is_time)) in rows.into_iter().enumerate() {
        let answer = time(rt.alloc(), octets);
        same_at(&rt, row, answer.is_ok_and(|time| time == expected), is_time);
    }
}

#[test]
fn times_that_a_form_cannot_hold(rt: HostRuntime) {
    let time = |year, day| DateTime {
        year,
        month: 2,
        day,
        hour: 0,
        minute: 0,
        second: 0,
    };
    holds(&rt, UtcTime::new(time(1950, 28)).is_some());
    holds(&rt, UtcTime::new(time(1949, 28)).is_none());
    holds(&rt, UtcTime::new(time(2050, 28)).is_none());
    holds(&rt, GeneralizedTime::new(time(9999, 28)).is_some());
    holds(&rt, GeneralizedTime::new(time(10000, 28)).is_none());
    holds(&rt, GeneralizedTime::new(time(1900, 29)).is_none());
}

// The day at midnight, the hour being `hour`.
fn at(year: u16, month: u8, day: u8, hour: u8) -> DateTime {
    DateTime {
        year,
        month,
        day,
        hour,
        minute: 0,
        second: 0,
    }
}

// A certificate is expired if the time is later than the end of its validity.
#[test]
fn an_earlier_time_is_less(rt: HostRuntime) {
    let noon = at(2024, 3, 1, 12);
    let ascending = [
        at(1999, 12, 31, 23),
        at(2024, 1, 31, 23),
        at(2024, 2, 29, 23),
        at(2024, 3, 1, 0),
        noon,
        DateTime { second: 59, ..noon },
        DateTime { minute: 1, ..noon },
        at(2024, 3, 1, 13),
        at(2024, 3, 2, 0),
    ];
    for (i, this) in ascending.iter().enumerate() {
        for (j, that) in ascending.iter().enumerate() {
            same_at(&rt, i, this.cmp(that), i.cmp(&j));
            same_at(&rt, i, this.partial_cmp(that), Some(i.cmp(&j)));
            same_at(&rt, i, this < that, i < j);
            same_at(&rt, i, this == that, i == j);
        }
    }
}

// Times and their seconds since 1970, as `date -u +%s` prints them.
fn times_with_seconds() -> [(DateTime, i64); 8] {
    [
        (date_time((0, 1, 1), (0, 0, 0)), -62167219200),
        (date_time((1901, 12, 13), (20, 45, 52)), -2147483648),
        (date_time((1969, 12, 31), (23, 59, 59)), -1),
        (date_time((1970, 1, 1), (0, 0, 0)), 0),
        (date_time((2000, 2, 29), (12, 30, 0)), 951827400),
        (date_time((2001, 9, 9), (1, 46, 40)), 1000000000),
        (date_time((2100, 3, 1), (0, 0, 0)), 4107542400),
        (date_time((9999, 12, 31), (23, 59, 59)), 253402300799),
    ]
}

fn date_time(date: (u16, u8, u8), time: (u8, u8, u8)) -> DateTime {
    DateTime {
        year: date.0,
        month: date.1,
        day: date.2,
        hour: time.0,
        minute: time.1,
        second: time.2,
    }
}

#[test]
fn seconds_since_1970(rt: HostRuntime) {
    for (row, (time, seconds)) in times_with_seconds().into_iter().enumerate() {
        same_at(&rt, row, time.unix_seconds(), seconds);
        same_at(&rt, row, DateTime::from_unix_seconds(seconds), Some(time));
    }
}

#[test]
fn seconds_of_no_year(rt: HostRuntime) {
    for (row, seconds) in [i64::MIN, -62167219201, 253402300800, i64::MAX].into_iter().enumerate() {
        same_at(&rt, row, DateTime::from_unix_seconds(seconds), None);
    }
}
