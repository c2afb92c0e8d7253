//! A month of one octet: also as a constructed string, but never as segments.
use super::*;
use crate::checks::{same, same_at};

// Reads the octets as exactly one month, and returns its number.
fn month(alloc: Global, octets: &[u8]) -> Result<u8, Error> {
    let month = MyByteMonth::from_ber(alloc, octets)?;
    Ok(month.month())
}

#[test]
fn a_month_is_read_from_primitive_and_constructed_strings(rt: HostRuntime) -> Result<(), Fail> {
    same(&rt, month(rt.alloc(), &[0x04, 0x01, 0x09]), Ok(9));
    same(&rt, month(rt.alloc(), &[0x24, 0x01, 0x09]), Ok(9));
    let mut reader = ber_reader(&[0x24, 0x01, 0x0B, 0x05, 0x00])?;
    same(&rt, next_month(rt.alloc(), &mut reader), Ok(11));
    same(&rt, reader.place(), (3, 5, false));
    Ok(())
}

// Indefinite-length contents are not joined: the first octet is read, and the rest is left.
#[test]
fn no_month_is_read_from_an_indefinite_length(rt: HostRuntime) {
    let rows: [(&[u8], Error); 6] = [
        (&[0x24, 0x80, 0x04, 0x01, 0x09, 0x00, 0x00], trailing(3, 2)),
        (&[0x24, 0x80, 0x09, 0x00, 0x00, 0x00], trailing(3, 1)),
        (&[0x24, 0x80, 0x00, 0x00], incomplete(3, 2, 2)),
        (&[0x24, 0x80, 0x00, 0x00, 0x09], incomplete(3, 2, 2)),
        (&[0x24, 0x80, 0x0C, 0x00, 0x00, 0x00], no_month()),
        (
            &[0x24, 0x80, 0x30, 0x80, 0x00, 0x00, 0x00, 0x00],
            no_month(),
        ),
    ];
    for (octets, error) in rows {
        same_at(&rt, error, month(rt.alloc(), octets), Err(error));
    }
}

fn no_month() -> Error {
    ErrorKind::DateTime.at(Length::new(3))
}

#[test]
fn a_month_is_refused_by_the_error_of_its_header(rt: HostRuntime) {
    let rows: [(&[u8], Error); 9] = [
        (&[0x24], incomplete(2, 1, 1)),
        (&[0x24, 0x80], incomplete(3, 2, 2)),
        (&[0x04, 0x80], incomplete(3, 2, 2)),
        (&[0x24, 0x80, 0x09, 0x00, 0x00], incomplete(6, 5, 5)),
        (&[0x24, 0x80, 0x04, 0x01, 0x09, 0x00], incomplete(7, 6, 6)),
        (&[0x24, 0x80, 0x04, 0x01, 0x09], incomplete(6, 5, 5)),
        (&[0x04, 0x80, 0x04, 0x01, 0x09, 0x00, 0x00], indefinite(2)),
        (&[0x24, 0x81, 0x01, 0x09], incorrect(Tag::OctetString, 3)),
        (&[0x2C, 0x01, 0x09], unknown(0x2C, 1)),
    ];
    for (octets, error) in rows {
        same_at(&rt, error, month(rt.alloc(), octets), Err(error));
    }
}

#[test]
fn a_month_with_another_tag_is_refused(rt: HostRuntime) {
    let rows: [(&[u8], Tag); 4] = [
        (&[0x30, 0x01, 0x09], Tag::Sequence),
        (&[0x30, 0x80, 0x00, 0x00], Tag::Sequence),
        (&[0x31, 0x80, 0x04, 0x01, 0x09, 0x00, 0x00], Tag::Set),
        (&[0x0C, 0x01, 0x09], Tag::Utf8String),
    ];
    for (octets, actual) in rows {
        same_at(
            &rt,
            actual,
            month(rt.alloc(), octets),
            Err(unexpected(Tag::OctetString, actual)),
        );
    }
}

#[test]
fn another_tag_leaves_the_reader_after_its_header(rt: HostRuntime) -> Result<(), Fail> {
    let mut reader = ber_reader(&[0x30, 0x80, 0x00, 0x00])?;
    let refused = MyByteMonth::decode(rt.alloc(), &mut reader);
    same(
        &rt,
        refused,
        Err(unexpected(Tag::OctetString, Tag::Sequence)),
    );
    same(&rt, reader.place(), (2, 4, false));
    Ok(())
}

#[test]
fn a_month_with_missing_spare_or_wrong_octets_is_refused(rt: HostRuntime) {
    let rows: [(&[u8], Error); 7] = [
        (&[0x24, 0x00], incomplete(3, 2, 2)),
        (&[0x24, 0x01], incomplete(3, 2, 2)),
        (&[0x24, 0x02, 0x09], incomplete(4, 3, 3)),
        (&[0x24, 0x02, 0x09, 0x00], trailing(3, 1)),
        (&[0x24, 0x01, 0x09, 0x00], trailing(3, 1)),
        (&[0x04, 0x01, 0x09, 0x00, 0x00], trailing(3, 2)),
        (&[0x24, 0x01, 0x0C], no_month()),
    ];
    for (octets, error) in rows {
        same_at(&rt, error, month(rt.alloc(), octets), Err(error));
    }
}

#[test]
fn boxed_months_and_pairs_of_months_are_read_under_ber(rt: HostRuntime) -> Result<(), Fail> {
    let boxed = Box::<MyByteMonth>::from_ber(rt.alloc(), &[0x24, 0x01, 0x09])?;
    same(&rt, boxed.month(), 9);
    let octets = [0x24, 0x01, 0x09, 0x04, 0x01, 0x02];
    let (first, second) = <(MyByteMonth, MyByteMonth)>::from_ber(rt.alloc(), &octets)?;
    same(&rt, first.month(), 9);
    same(&rt, second.month(), 2);
    Ok(())
}

// Encodings that the Distinguished Encoding Rules do not have.
#[test]
fn constructed_months_are_refused_under_der(rt: HostRuntime) {
    let rows: [&[u8]; 2] = [&[0x24, 0x01, 0x09], &[0x24, 0x80, 0x00, 0x00]];
    for octets in rows {
        let refused = MyByteMonth::from_der(rt.alloc(), octets).err();
        same(&rt, refused, Some(unknown(0x24, 1)));
    }
}
