//! Certificates and revocation lists (RFC 5280, 4.1 and 5.1), read by hand with an index, without a
//! reader. It rejects what the library rejects: each tag, length and form, each date, default and order is checked.
use crate::hand::{element_at, long_length_at};

pub const BOOLEAN: u8 = 0x01;
pub const INTEGER: u8 = 0x02;
pub const BIT_STRING: u8 = 0x03;
pub const OCTET_STRING: u8 = 0x04;
pub const OBJECT_IDENTIFIER: u8 = 0x06;
pub const UTC_TIME: u8 = 0x17;
pub const GENERALIZED_TIME: u8 = 0x18;
pub const SEQUENCE: u8 = 0x30;
pub const SET: u8 = 0x31;
pub const VERSION: u8 = 0xA0;
pub const ISSUER_ID: u8 = 0x81;
pub const SUBJECT_ID: u8 = 0x82;
pub const EXTENSIONS: u8 = 0xA3;
pub const LIST_EXTENSIONS: u8 = 0xA0;

/// An algorithm, and its parameters: the first octet and the contents of their element.
pub struct Algorithm<'a> {
    pub oid: &'a [u8],
    pub parameters: Option<(u8, &'a [u8])>,
}

/// A public key, and its algorithm.
pub struct PublicKey<'a> {
    pub algorithm: Algorithm<'a>,
    pub key: &'a [u8],
}

/// A date and time, and whether it is encoded as a UTCTime.
pub struct Time {
    pub is_utc: bool,
    pub year: u16,
    pub month: u8,
    pub day: u8,
    pub hour: u8,
    pub minute: u8,
    pub second: u8,
}

/// A certificate that borrows from the octets it is read from. Names and extensions are contents
/// whose elements were all checked.
pub struct Certificate<'a> {
    pub version: u8,
    pub serial_number: &'a [u8],
    pub signed_by: Algorithm<'a>,
    pub issuer: &'a [u8],
    pub not_before: Time,
    pub not_after: Time,
    pub subject: &'a [u8],
    pub public_key: PublicKey<'a>,
    pub issuer_id: Option<&'a [u8]>,
    pub subject_id: Option<&'a [u8]>,
    pub extensions: Option<&'a [u8]>,
    pub algorithm: Algorithm<'a>,
    pub signature: &'a [u8],
}

/// Octets, of which those from position `at` on are left.
pub struct Left<'a> {
    pub bytes: &'a [u8],
    pub at: usize,
}

impl<'a> Left<'a> {
    #[inline(always)]
    pub fn of(bytes: &'a [u8]) -> Self {
        Left { bytes, at: 0 }
    }

    #[inline(always)]
    pub fn is_empty(&self) -> bool {
        self.at == self.bytes.len()
    }

    #[inline(always)]
    fn begins(&self, first: u8) -> bool {
        self.bytes.get(self.at) == Some(&first)
    }

    /// The contents of the next element, which must begin with the octet `first`.
    #[inline(always)]
    fn contents(&mut self, first: u8) -> Option<&'a [u8]> {
        if !self.begins(first) {
            return None;
        }
        let octet = *self.bytes.get(self.at + 1)?;
        let (len, start) = if octet < 0x80 {
            (octet as usize, self.at + 2)
        } else {
            long_length_at(self.bytes, octet, self.at + 2)?
        };
        self.at = start + len;
        self.bytes.get(start..start + len)
    }

    /// The same, as octets that are left.
    #[inline(always)]
    fn part(&mut self, first: u8) -> Option<Left<'a>> {
        self.contents(first).map(Left::of)
    }

    /// The same, if `is_formed` accepts the contents.
    #[inline(always)]
    fn formed(&mut self, first: u8, is_formed: fn(&[u8]) -> bool) -> Option<&'a [u8]> {
        self.contents(first).filter(|it| is_formed(it))
    }

    /// The same, or `Some(None)` if the next element begins with another octet.
    #[inline(always)]
    fn perhaps(&mut self, first: u8, is_formed: fn(&[u8]) -> bool) -> Option<Option<&'a [u8]>> {
        if !self.begins(first) {
            return Some(None);
        }
        self.formed(first, is_formed).map(Some)
    }

    /// The first octet and the contents of the next element, of any tag.
    #[inline(always)]
    fn any(&mut self) -> Option<(u8, &'a [u8])> {
        let element = element_at(self.bytes, self.at, self.bytes.len())?;
        self.at = element.end;
        Some((element.first, &self.bytes[element.start..element.end]))
    }

    /// The value, if no octets are left.
    #[inline(always)]
    fn whole<T>(&self, value: T) -> Option<T> {
        self.is_empty().then_some(value)
    }
}

/// The next certificate.
#[inline(never)]
pub fn certificate<'a>(left: &mut Left<'a>) -> Option<Certificate<'a>> {
    let mut outer = left.part(SEQUENCE)?;
    let mut inner = outer.part(SEQUENCE)?;
    let version = version(&mut inner)?;
    let serial_number = inner.formed(INTEGER, is_integer)?;
    let signed_by = algorithm(&mut inner)?;
    let issuer = name(&mut inner)?;
    let mut validity = inner.part(SEQUENCE)?;
    let (not_before, not_after) = (time(&mut validity)?, time(&mut validity)?);
    validity.whole(())?;
    let subject = name(&mut inner)?;
    let public_key = public_key(&mut inner)?;
    let issuer_id = inner.perhaps(ISSUER_ID, is_bits)?;
    let subject_id = inner.perhaps(SUBJECT_ID, is_bits)?;
    let extensions = extensions(&mut inner, EXTENSIONS)?;
    inner.whole(())?;
    let (algorithm, signature) = (algorithm(&mut outer)?, outer.formed(BIT_STRING, is_bits)?);
    outer.whole(Certificate {
        version,
        serial_number,
        signed_by,
        issuer,
        not_before,
        not_after,
        subject,
        public_key,
        issuer_id,
        subject_id,
        extensions,
        algorithm,
        signature,
    })
}

/// The entries of a revocation list: contents whose elements were all checked, and passed to `pass`.
#[inline(never)]
pub fn revocation_list(bytes: &[u8], mut pass: impl FnMut(&[u8])) -> Option<()> {
    let mut left = Left::of(bytes);
    let mut outer = left.part(SEQUENCE)?;
    left.whole(())?;
    let mut inner = outer.part(SEQUENCE)?;
    if inner.begins(INTEGER) && !matches!(inner.contents(INTEGER)?, [0..3]) {
        return None;
    }
    algorithm(&mut inner)?;
    name(&mut inner)?;
    time(&mut inner)?;
    if inner.begins(UTC_TIME) || inner.begins(GENERALIZED_TIME) {
        time(&mut inner)?;
    }
    let entries = match inner.begins(SEQUENCE) {
        true => inner.contents(SEQUENCE)?,
        false => &[],
    };
    let mut items = Left::of(entries);
    while !items.is_empty() {
        entry(&mut items)?;
    }
    extensions(&mut inner, LIST_EXTENSIONS)?;
    inner.whole(())?;
    algorithm(&mut outer)?;
    outer.formed(BIT_STRING, is_bits)?;
    outer.whole(())?;
    let mut items = Left::of(entries);
    while !items.is_empty() {
        pass(entry(&mut items)?);
    }
    Some(())
}

/// The serial number of the next entry of a revocation list.
#[inline(always)]
fn entry<'a>(left: &mut Left<'a>) -> Option<&'a [u8]> {
    let mut part = left.part(SEQUENCE)?;
    let serial_number = part.formed(INTEGER, is_integer)?;
    time(&mut part)?;
    if part.begins(SEQUENCE) {
        let mut items = part.part(SEQUENCE)?;
        while !items.is_empty() {
            extension(&mut items)?;
        }
    }
    part.whole(serial_number)
}

/// The version: 1 for version 2, and 2 for version 3; version 1 is not written.
#[inline(always)]
fn version(left: &mut Left<'_>) -> Option<u8> {
    if !left.begins(VERSION) {
        return Some(0);
    }
    let mut part = left.part(VERSION)?;
    match part.contents(INTEGER)? {
        &[number @ (1 | 2)] => part.whole(number),
        _ => None,
    }
}

#[inline(always)]
fn algorithm<'a>(left: &mut Left<'a>) -> Option<Algorithm<'a>> {
    let mut part = left.part(SEQUENCE)?;
    let oid = part.formed(OBJECT_IDENTIFIER, is_identifier)?;
    let parameters = if part.is_empty() {
        None
    } else {
        Some(part.any()?)
    };
    part.whole(Algorithm { oid, parameters })
}

/// The next public key.
#[inline(always)]
pub fn public_key<'a>(left: &mut Left<'a>) -> Option<PublicKey<'a>> {
    let mut part = left.part(SEQUENCE)?;
    let algorithm = algorithm(&mut part)?;
    let key = part.formed(BIT_STRING, is_bits)?;
    part.whole(PublicKey { algorithm, key })
}

/// The contents of a name.
#[inline(always)]
fn name<'a>(left: &mut Left<'a>) -> Option<&'a [u8]> {
    let contents = left.contents(SEQUENCE)?;
    let mut levels = Left::of(contents);
    while !levels.is_empty() {
        let mut level = levels.part(SET)?;
        let mut upcoming: &[u8] = &[];
        while !level.is_empty() {
            let start = level.at;
            attribute(&mut level)?;
            let element = &level.bytes[start..level.at];
            if element < upcoming {
                return None;
            }
            upcoming = element;
        }
    }
    Some(contents)
}

#[inline(always)]
fn attribute(left: &mut Left<'_>) -> Option<()> {
    let mut part = left.part(SEQUENCE)?;
    part.formed(OBJECT_IDENTIFIER, is_identifier)?;
    part.any()?;
    part.whole(())
}

/// The contents of the extensions after the tag `first`, if there are any.
#[inline(always)]
fn extensions<'a>(left: &mut Left<'a>, first: u8) -> Option<Option<&'a [u8]>> {
    if !left.begins(first) {
        return Some(None);
    }
    let mut part = left.part(first)?;
    let contents = part.contents(SEQUENCE)?;
    let mut items = Left::of(contents);
    while !items.is_empty() {
        extension(&mut items)?;
    }
    part.whole(Some(contents))
}

#[inline(always)]
fn extension(left: &mut Left<'_>) -> Option<()> {
    let mut item = left.part(SEQUENCE)?;
    item.formed(OBJECT_IDENTIFIER, is_identifier)?;
    item.perhaps(BOOLEAN, is_true)?;
    item.contents(OCTET_STRING)?;
    item.whole(())
}

/// Whether a BOOLEAN is true; false is the default, which is not written.
#[inline(always)]
fn is_true(octets: &[u8]) -> bool {
    octets == [0xFF]
}

#[inline(always)]
fn is_integer(octets: &[u8]) -> bool {
    match octets {
        [] => false,
        [_] => true,
        [0, second, ..] => *second >= 0x80,
        [0xFF, second, ..] => *second < 0x80,
        _ => true,
    }
}

#[inline(always)]
fn is_identifier(octets: &[u8]) -> bool {
    let mut begins = true;
    for &octet in octets {
        if begins && octet == 0x80 {
            return false;
        }
        begins = octet < 0x80;
    }
    begins && !octets.is_empty()
}

#[inline(always)]
fn is_bits(octets: &[u8]) -> bool {
    match octets {
        [0] => true,
        [unused @ 0..8, .., last] => last.trailing_zeros() >= *unused as u32,
        _ => false,
    }
}

#[inline(always)]
fn time(left: &mut Left<'_>) -> Option<Time> {
    if left.begins(UTC_TIME) {
        let octets: &[u8; 13] = left.contents(UTC_TIME)?.try_into().ok()?;
        let year = digits(octets, 0)?;
        let year = year + if year < 50 { 2000 } else { 1900 };
        return time_of(true, year, &octets[2..]);
    }
    let octets: &[u8; 15] = left.contents(GENERALIZED_TIME)?.try_into().ok()?;
    let year = digits(octets, 0)? * 100 + digits(octets, 2)?;
    time_of(false, year, &octets[4..])
}

/// The time in this year, from the octets that begin with the month.
#[inline(always)]
fn time_of(is_utc: bool, year: u16, octets: &[u8]) -> Option<Time> {
    let time = Time {
        is_utc,
        year,
        month: digits(octets, 0)? as u8,
        day: digits(octets, 2)? as u8,
        hour: digits(octets, 4)? as u8,
        minute: digits(octets, 6)? as u8,
        second: digits(octets, 8)? as u8,
    };
    let is_time = octets[10] == b'Z'
        && (1..13).contains(&time.month)
        && (1..=days_of(year, time.month)).contains(&time.day)
        && time.hour < 24
        && time.minute < 60
        && time.second < 60;
    is_time.then_some(time)
}

/// The number of two decimal digits.
#[inline(always)]
fn digits(octets: &[u8], at: usize) -> Option<u16> {
    let (tens, ones) = (
        octets[at].wrapping_sub(b'0'),
        octets[at + 1].wrapping_sub(b'0'),
    );
    (tens < 10 && ones < 10).then_some((tens * 10 + ones) as u16)
}

#[inline(always)]
fn days_of(year: u16, month: u8) -> u8 {
    match month {
        2 if year % 4 == 0 && (year % 100 != 0 || year % 400 == 0) => 29,
        2 => 28,
        4 | 6 | 9 | 11 => 30,
        _ => 31,
    }
}
