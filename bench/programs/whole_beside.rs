//! The work of whole.rs with the crate `der`.
use crate::common::Totals;
use crate::put::pass;
use crate::written::WantedKey;
use der::{Encode, EncodeValue, FixedTag, Length, Result, SliceWriter, Tag, Writer};

struct Borrowed<'a>(&'a [u8]);

impl FixedTag for Borrowed<'_> {
    const TAG: Tag = Tag::OctetString;
}

impl EncodeValue for Borrowed<'_> {
    fn value_len(&self) -> Result<Length> {
        Length::try_from(self.0.len())
    }

    fn encode_value(&self, writer: &mut impl Writer) -> Result<()> {
        writer.write(self.0)
    }
}

struct Month(u8);

impl FixedTag for Month {
    const TAG: Tag = Tag::OctetString;
}

impl EncodeValue for Month {
    fn value_len(&self) -> Result<Length> {
        Ok(Length::ONE)
    }

    fn encode_value(&self, writer: &mut impl Writer) -> Result<()> {
        writer.write_byte(self.0)
    }
}

struct Algorithm<'a>(Borrowed<'a>, Month);

impl FixedTag for Algorithm<'_> {
    const TAG: Tag = Tag::Sequence;
}

impl EncodeValue for Algorithm<'_> {
    fn value_len(&self) -> Result<Length> {
        self.0.encoded_len()? + self.1.encoded_len()?
    }

    fn encode_value(&self, writer: &mut impl Writer) -> Result<()> {
        self.0.encode(writer)?;
        self.1.encode(writer)
    }
}

struct Key<'a>(Algorithm<'a>, Borrowed<'a>);

impl FixedTag for Key<'_> {
    const TAG: Tag = Tag::Sequence;
}

impl EncodeValue for Key<'_> {
    fn value_len(&self) -> Result<Length> {
        self.0.encoded_len()? + self.1.encoded_len()?
    }

    fn encode_value(&self, writer: &mut impl Writer) -> Result<()> {
        self.0.encode(writer)?;
        self.1.encode(writer)
    }
}

#[inline(always)]
fn key_of<'a>(wanted: &WantedKey, borrowed: &'a [u8]) -> Option<Key<'a>> {
    let algorithm = borrowed.get(..wanted.algorithm as usize)?;
    let key = borrowed.get(..wanted.key as usize)?;
    let month = (wanted.month < 12).then_some(Month(wanted.month))?;
    Some(Key(Algorithm(Borrowed(algorithm), month), Borrowed(key)))
}

#[inline(never)]
pub fn count(wanted: &[WantedKey], borrowed: &[u8]) -> Totals {
    let mut totals = Totals::default();
    for one in wanted {
        let Some(Ok(len)) = key_of(one, borrowed).map(|it| it.encoded_len()) else {
            return totals;
        };
        totals.elements = totals.elements.wrapping_add(1);
        totals.contents = totals.contents.wrapping_add(u32::from(len) as u64);
    }
    totals
}

#[inline(never)]
pub fn keys(wanted: &[WantedKey], borrowed: &[u8], out: &mut [u8]) -> Totals {
    let mut totals = Totals::default();
    let mut writer = SliceWriter::new(out);
    for one in wanted {
        let Some(Ok(())) = key_of(one, borrowed).map(|it| it.encode(&mut writer)) else {
            return totals;
        };
        totals.elements = totals.elements.wrapping_add(1);
    }
    if let Ok(octets) = writer.finish() {
        totals.contents = octets.len() as u64;
    }
    totals
}

#[inline(never)]
pub fn to_slice(wanted: &[WantedKey], borrowed: &[u8]) -> Totals {
    let mut totals = Totals::default();
    let mut buf = [0; 1024];
    for one in wanted {
        let Some(key) = key_of(one, borrowed) else {
            return totals;
        };
        let Ok(octets) = key.encode_to_slice(&mut buf) else {
            return totals;
        };
        pass(&mut totals, octets);
    }
    totals
}

#[inline(never)]
pub fn to_der(wanted: &[WantedKey], borrowed: &[u8]) -> Totals {
    let mut totals = Totals::default();
    for one in wanted {
        let Some(Ok(octets)) = key_of(one, borrowed).map(|it| it.to_der()) else {
            return totals;
        };
        pass(&mut totals, &octets);
    }
    totals
}
