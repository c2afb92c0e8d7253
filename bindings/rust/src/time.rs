//! Times.
use crate::error::Error;
use crate::reader::Reader;
use crate::sys::{self, RawTime};
use crate::tag::Tag;
use crate::writer::Writer;
use core::fmt;
use core::str::FromStr;
#[cfg(feature = "std")]
use std::time::{Duration, SystemTime};

/// A time in UTC, in the years 0 to 9999. It is printed as `2026-11-26T23:05:00Z`, and only this form of RFC 3339 is
/// parsed. The fields may be no time: then it is printed as they are, and the calls that check it fail.
///
/// ```
/// use der_c::Time;
/// # fn main() -> Result<(), der_c::Error> {
/// let time: Time = "2026-11-26T23:05:00Z".parse()?;
/// assert_eq!((time.year, time.month, time.day), (2026, 11, 26));
/// assert_eq!(time.unix_seconds()?, 1_795_734_300);
/// assert_eq!(Time::from_unix_seconds(0).unwrap().to_string(), "1970-01-01T00:00:00Z");
/// # Ok(())
/// # }
/// ```
#[derive(Clone, Copy, PartialEq, Eq, PartialOrd, Ord, Hash, Debug)]
pub struct Time {
    /// The year, from 0 to 9999.
    pub year: u16,
    /// The month, from 1 to 12.
    pub month: u8,
    /// The day of the month, from 1 to 31.
    pub day: u8,
    /// The hour, from 0 to 23.
    pub hour: u8,
    /// The minute, from 0 to 59.
    pub minute: u8,
    /// The second, from 0 to 59.
    pub second: u8,
}

impl Time {
    /// The time that is so many seconds after 1970-01-01T00:00:00Z, or before it for a negative number, as
    /// [`not_after`](crate::Certificate::not_after) has them; `None` if its year is not from 0 to 9999.
    pub fn from_unix_seconds(seconds: i64) -> Option<Self> {
        let mut octets = [0; 17];
        let mut writer = Writer::new(&mut octets);
        writer
            .time_seconds(Tag::GENERALIZED_TIME, Tag::GENERALIZED_TIME, seconds)
            .ok()?;
        let mut reader = Reader::der(writer.finish().ok()?).ok()?;
        Some(reader.time(Tag::GENERALIZED_TIME, Tag::GENERALIZED_TIME).ok()?.0)
    }

    /// The seconds from 1970-01-01T00:00:00Z to the time; negative before it.
    ///
    /// # Errors
    ///
    /// [`Value`](crate::ErrorKind::Value) if the fields are no time, as those of the 30th of February.
    pub fn unix_seconds(&self) -> Result<i64, Error> {
        let mut octets = [0; 17];
        let mut writer = Writer::new(&mut octets);
        writer.time(Tag::GENERALIZED_TIME, Tag::GENERALIZED_TIME, *self)?;
        let mut reader = Reader::der(writer.finish()?)?;
        Ok(reader.time(Tag::GENERALIZED_TIME, Tag::GENERALIZED_TIME)?.1)
    }
}

/// Prints the time as RFC 3339 does: `2026-11-26T23:05:00Z`.
impl fmt::Display for Time {
    fn fmt(&self, f: &mut fmt::Formatter<'_>) -> fmt::Result {
        let Time {
            year,
            month,
            day,
            hour,
            minute,
            second,
        } = self;
        write!(f, "{year:04}-{month:02}-{day:02}T{hour:02}:{minute:02}:{second:02}Z")
    }
}

impl From<RawTime> for Time {
    fn from(raw: RawTime) -> Self {
        Time {
            year: raw.year,
            month: raw.month,
            day: raw.day,
            hour: raw.hour,
            minute: raw.minute,
            second: raw.second,
        }
    }
}

impl From<Time> for RawTime {
    fn from(time: Time) -> Self {
        RawTime {
            seconds: 0,
            year: time.year,
            month: time.month,
            day: time.day,
            hour: time.hour,
            minute: time.minute,
            second: time.second,
        }
    }
}

/// The number that so many decimal digits are.
fn digits(octets: &[u8]) -> Option<u16> {
    octets.iter().try_fold(0, |number: u16, octet| {
        let digit = char::from(*octet).to_digit(10)?;
        number.checked_mul(10)?.checked_add(digit as u16)
    })
}

/// The text as [`Display`](fmt::Display) prints a time: `2026-11-26T23:05:00Z`, without a fraction of a second and in UTC.
fn parsed(text: &str) -> Option<Time> {
    let [
        y0,
        y1,
        y2,
        y3,
        b'-',
        m0,
        m1,
        b'-',
        d0,
        d1,
        b'T',
        h0,
        h1,
        b':',
        n0,
        n1,
        b':',
        s0,
        s1,
        b'Z',
    ] = text.as_bytes()
    else {
        return None;
    };
    let two = |high: &u8, low: &u8| digits(&[*high, *low]).map(|it| it as u8);
    Some(Time {
        year: digits(&[*y0, *y1, *y2, *y3])?,
        month: two(m0, m1)?,
        day: two(d0, d1)?,
        hour: two(h0, h1)?,
        minute: two(n0, n1)?,
        second: two(s0, s1)?,
    })
}

/// Parses a text such as `2026-11-26T23:05:00Z`. Fails with [`DateTime`](crate::ErrorKind::DateTime) for every other
/// form, also with a fraction or an offset, and if there is no such time.
impl FromStr for Time {
    type Err = Error;

    fn from_str(text: &str) -> Result<Self, Error> {
        parsed(text)
            .filter(|time| time.unix_seconds().is_ok())
            .ok_or(Error::of_kind(sys::DATE_TIME))
    }
}

/// The time in whole seconds: a fraction is cut off towards the past. Fails with
/// [`DateTime`](crate::ErrorKind::DateTime) if the year is not from 0 to 9999.
#[cfg(feature = "std")]
impl TryFrom<SystemTime> for Time {
    type Error = Error;

    fn try_from(time: SystemTime) -> Result<Self, Error> {
        let seconds = match time.duration_since(SystemTime::UNIX_EPOCH) {
            Ok(after) => i64::try_from(after.as_secs()).ok(),
            Err(error) => {
                let before = error.duration();
                let whole = before.as_secs().saturating_add(u64::from(before.subsec_nanos() > 0));
                i64::try_from(whole).ok().map(|it| -it)
            }
        };
        seconds
            .and_then(Time::from_unix_seconds)
            .ok_or(Error::of_kind(sys::DATE_TIME))
    }
}

/// Fails as [`unix_seconds`](Time::unix_seconds) does, and with [`DateTime`](crate::ErrorKind::DateTime) if the clock of the
/// system has no such time.
#[cfg(feature = "std")]
impl TryFrom<Time> for SystemTime {
    type Error = Error;

    fn try_from(time: Time) -> Result<Self, Error> {
        let seconds = time.unix_seconds()?;
        let distance = Duration::from_secs(seconds.unsigned_abs());
        let found = if seconds < 0 {
            SystemTime::UNIX_EPOCH.checked_sub(distance)
        } else {
            SystemTime::UNIX_EPOCH.checked_add(distance)
        };
        found.ok_or(Error::of_kind(sys::DATE_TIME))
    }
}
