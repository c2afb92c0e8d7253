//! Values that are written from the end of a buffer, each header after its contents.

use super::*;
use crate::checks::{holds_at, same, same_at, same_octets};
use der::example::BorrowedOctets;
use der::{BytesRef, Encode, EncodeRef, SliceWriter};
use test_fixtures::zeros::Zeros;

// The header of an OCTET STRING with so many contents octets (X.690 8.1.3).
fn header_octets(count: usize) -> &'static [u8] {
    match count {
        0 => &[0x04, 0x00],
        127 => &[0x04, 0x7F],
        128 => &[0x04, 0x81, 0x80],
        255 => &[0x04, 0x81, 0xFF],
        256 => &[0x04, 0x82, 0x01, 0x00],
        65535 => &[0x04, 0x82, 0xFF, 0xFF],
        _ => &[0x04, 0x83, 0x01, 0x00, 0x00],
    }
}

#[test]
fn headers_of_each_size_are_put_in_front_of_contents(rt: HostRuntime) -> Result<(), Fail> {
    let contents = vec![in rt.alloc(); 0xABu8; 65536]?;
    for count in [0, 127, 128, 255, 256, 65535, 65536] {
        let value = BorrowedOctets {
            octets: BytesRef::new(&contents[..count])?,
        };
        let header = header_octets(count);
        let whole = header.len() + count;
        same_at(&rt, count, value.len_before(), Some(whole as u32));
        let mut buf = vec![in rt.alloc(); 0xCCu8; whole + 9]?;
        let start = value.encode_before(&mut buf, (whole + 5) as u32);
        same_at(&rt, count, start, 5);
        holds_at(&rt, count, buf[..5] == [0xCC; 5]);
        holds_at(&rt, count, &buf[5..5 + header.len()] == header);
        holds_at(&rt, count, buf[5 + header.len()..5 + whole] == contents[..count]);
        holds_at(&rt, count, buf[5 + whole..] == [0xCC; 4]);
        let der = value.to_der(rt.alloc())?;
        holds_at(&rt, count, der.as_slice() == &buf[5..5 + whole]);
    }
    Ok(())
}

#[test]
fn a_pair_with_a_type_that_is_written_forwards_has_the_same_octets(
    rt: HostRuntime,
) -> Result<(), Fail> {
    let octets = BorrowedOctets {
        octets: BytesRef::new(&[0x01, 0x02])?,
    };
    let zeros = Zeros { count: 3 };
    let pair = (EncodeRef(&octets), EncodeRef(&zeros));
    let wanted = [0x04, 0x02, 0x01, 0x02, 0x04, 0x03, 0x00, 0x00, 0x00];
    same(&rt, octets.len_before(), Some(4));
    same(&rt, zeros.len_before(), None);
    same(&rt, pair.len_before(), None);
    let mut buf = [0xCC; 12];
    same(&rt, pair.encode_before(&mut buf, 11), 2);
    same_octets(&rt, &buf[2..11], &wanted);
    same(&rt, buf[11], 0xCC);
    same_octets(&rt, pair.to_der(rt.alloc())?.as_slice(), &wanted);
    let mut buf = [0xCC; 12];
    same_octets(&rt, pair.encode_to_slice(&mut buf)?, &wanted);
    Ok(())
}

#[test]
fn octets_after_the_encoding_are_unchanged(rt: HostRuntime) -> Result<(), Fail> {
    let value = BorrowedOctets {
        octets: BytesRef::new(&[0x01, 0x02])?,
    };
    let mut buf = [0xCC; 6];
    same(&rt, value.encode_to_slice(&mut buf)?.len(), 4);
    same_octets(&rt, &buf, &[0x04, 0x02, 0x01, 0x02, 0xCC, 0xCC]);
    let mut out = Vec::from_slice(rt.alloc(), &[0xBBu8])?;
    same(&rt, value.encode_to_vec(&mut out)?, Length::new(4));
    same_octets(&rt, out.as_slice(), &[0xBB, 0x04, 0x02, 0x01, 0x02]);
    Ok(())
}

// The position of the error is that of the write that does not fit, as if the value were written
// from the start.
#[test]
fn a_buffer_that_is_too_short_has_the_error_of_the_first_write_that_does_not_fit(
    rt: HostRuntime,
) -> Result<(), Fail> {
    let value = BorrowedOctets {
        octets: BytesRef::new(&[0x01, 0x02, 0x03])?,
    };
    for (space, position) in [(0usize, 1u32), (1, 2), (2, 5), (3, 5), (4, 5)] {
        let mut buf = [0xCC; 4];
        let refused = value.encode_to_slice(&mut buf[..space]).err();
        let error = ErrorKind::Overlength.at(Length::new(position));
        same_at(&rt, space, refused, Some(error));
    }
    Ok(())
}

#[test]
fn a_writer_writes_values_from_their_end_in_its_space(rt: HostRuntime) -> Result<(), Fail> {
    let value = BorrowedOctets {
        octets: BytesRef::new(&[0x01, 0x02])?,
    };
    let mut buf = [0xCC; 10];
    let mut writer = SliceWriter::new(&mut buf);
    writer.encode(&value)?;
    writer.encode(&value)?;
    let refused = writer.encode(&value).err();
    same(&rt, refused, Some(ErrorKind::Overlength.at(Length::new(12))));
    same(&rt, writer.is_failed(), true);
    Ok(())
}
