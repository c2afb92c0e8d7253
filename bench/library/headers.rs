//! Headers that are written.
use crate::Totals;
use der::{Header, Length, SliceWriter, Tag, TagNumber};

/// A header that a benchmark writes.
#[repr(C)]
pub struct Wanted {
    /// The tag number. If `class` is 0, only the numbers of some universal tags that occur in
    /// certificates are known; any other number gives the tag NULL.
    pub number: u32,
    /// The length that the header gives for the contents.
    pub length: u32,
    /// The class: 0 is universal, 1 application, 2 context-specific, and any other number private.
    pub class: u8,
    /// Whether the tag is constructed: 0 for a primitive tag, any other number for a constructed
    /// tag. Ignored if `class` is 0.
    pub constructed: u8,
}

/// Writes the headers in `wanted`, without contents, to `out`, one after the other, until all are
/// written or there is an error. In the result, `elements` is the number of headers written, and
/// `octet_sum` is 0. If all headers are written, `contents` is the number of octets written. After
/// an error `contents` is 0.
#[unsafe(no_mangle)]
pub extern "C" fn der_bench_put_headers(wanted: &[Wanted], out: &mut [u8]) -> Totals {
    let mut totals = Totals::none();
    let mut writer = SliceWriter::new(out);
    for one in wanted {
        let header = Header::new(tag_of(one), Length::new(one.length));
        if writer.encode(&header).is_err() {
            return totals;
        }
        totals.pass(0, 0);
    }
    totals.written(writer.finish())
}

/// For each length in `lengths`, writes four headers with this length to `out`, one after the other
/// and without contents. The tags of the four headers are constants: SEQUENCE, INTEGER, OBJECT
/// IDENTIFIER and context-specific 3. Stops at the first error. In the result, `elements` is the
/// number of lengths for which all four headers are written, and `octet_sum` is 0. If the headers
/// for all lengths are written, `contents` is the number of octets written. After an error
/// `contents` is 0.
#[unsafe(no_mangle)]
pub extern "C" fn der_bench_put_known(lengths: &[u32], out: &mut [u8]) -> Totals {
    let mut totals = Totals::none();
    let mut writer = SliceWriter::new(out);
    for length in lengths {
        let len = Length::new(*length);
        let extensions = TagNumber(3).context_specific(true);
        if writer.encode(&Header::new(Tag::Sequence, len)).is_err()
            || writer.encode(&Header::new(Tag::Integer, len)).is_err()
            || writer
                .encode(&Header::new(Tag::ObjectIdentifier, len))
                .is_err()
            || writer.encode(&Header::new(extensions, len)).is_err()
        {
            return totals;
        }
        totals.pass(0, 0);
    }
    totals.written(writer.finish())
}

#[inline(always)]
fn tag_of(wanted: &Wanted) -> Tag {
    let constructed = wanted.constructed != 0;
    let number = TagNumber(wanted.number);
    match wanted.class {
        0 => universal_of(wanted.number),
        1 => number.application(constructed),
        2 => number.context_specific(constructed),
        _ => number.private(constructed),
    }
}

// The universal tags that occur in certificates.
#[inline(always)]
fn universal_of(number: u32) -> Tag {
    match number {
        1 => Tag::Boolean,
        2 => Tag::Integer,
        3 => Tag::BitString,
        4 => Tag::OctetString,
        6 => Tag::ObjectIdentifier,
        12 => Tag::Utf8String,
        16 => Tag::Sequence,
        17 => Tag::Set,
        19 => Tag::PrintableString,
        23 => Tag::UtcTime,
        _ => Tag::Null,
    }
}
