//! What a writer into a slice accepts, and its errors.
use super::month::september;
use super::*;
use crate::checks::{holds, same};
use der::{Encode, SliceWriter, Writer, encode_value_to_slice};

#[test]
fn octets_are_written_to_the_end_of_the_space(rt: HostRuntime) -> Result<(), Fail> {
    let mut buf = [0; 3];
    let mut writer = SliceWriter::new(&mut buf);
    same(&rt, writer.write(&[0x01, 0x02]), Ok(()));
    same(&rt, writer.write_byte(0x03), Ok(()));
    same(&rt, writer.write(&[]), Ok(()));
    holds(&rt, !writer.is_failed());
    same(&rt, writer.finish()?, [0x01, 0x02, 0x03].as_slice());
    Ok(())
}

#[test]
fn a_write_past_the_space_is_rejected(rt: HostRuntime) {
    let mut buf = [0; 3];
    let mut writer = SliceWriter::new(&mut buf);
    same(&rt, writer.write_byte(0x01), Ok(()));
    same(
        &rt,
        writer.write(&[0x02, 0x03, 0x04]),
        Err(ErrorKind::Overlength.at(Length::new(4))),
    );
    holds(&rt, writer.is_failed());
    let failed = ErrorKind::Failed.at(Length::ONE);
    same(&rt, writer.write_byte(0x02), Err(failed));
    same(&rt, writer.encode(&Tag::Null), Err(failed));
    holds(
        &rt,
        matches!(writer.finish(), Err(error) if error == failed),
    );
}

#[test]
fn an_error_leaves_the_writer_failed(rt: HostRuntime) {
    let mut buf = [0; 3];
    let mut writer = SliceWriter::new(&mut buf);
    same(&rt, writer.write_byte(0x01), Ok(()));
    let answer: Result<u8, Error> = writer.error(ErrorKind::SetOrdering);
    same(&rt, answer, Err(ErrorKind::SetOrdering.at(Length::ONE)));
    holds(&rt, writer.is_failed());
}

#[test]
fn a_length_is_rejected_where_there_is_no_space(rt: HostRuntime) {
    let mut writer = SliceWriter::new(&mut []);
    same(
        &rt,
        Length::ZERO.encode(&mut writer),
        Err(ErrorKind::Overlength.at(Length::ONE)),
    );
    holds(&rt, writer.is_failed());
    let mut buf = [0; 2];
    let mut writer = SliceWriter::new(&mut buf);
    same(
        &rt,
        Length::new(256).encode(&mut writer),
        Err(ErrorKind::Overlength.at(Length::new(3))),
    );
    holds(&rt, writer.is_failed());
}

#[test]
fn a_header_is_rejected_where_there_is_no_space(rt: HostRuntime) {
    let mut buf = [0; 3];
    let mut writer = SliceWriter::new(&mut buf);
    let empty = Header::new(Tag::Sequence, Length::ZERO);
    same(&rt, writer.encode(&empty), Ok(()));
    same(
        &rt,
        writer.encode(&empty),
        Err(ErrorKind::Overlength.at(Length::new(4))),
    );
    holds(&rt, writer.is_failed());
    let failed = ErrorKind::Failed.at(Length::new(3));
    holds(
        &rt,
        matches!(writer.finish(), Err(error) if error == failed),
    );

    let mut buf = [0; 3];
    let mut writer = SliceWriter::new(&mut buf);
    let header = Header::new(Tag::Sequence, Length::new(256));
    same(
        &rt,
        writer.encode(&header),
        Err(ErrorKind::Overlength.at(Length::new(4))),
    );
    holds(&rt, writer.is_failed());
    let failed = ErrorKind::Failed.at(Length::new(2));
    holds(
        &rt,
        matches!(writer.finish(), Err(error) if error == failed),
    );
}

#[test]
fn what_follows_in_the_buffer_is_left(rt: HostRuntime) -> Result<(), Fail> {
    let mut buf = [0xEE; 7];
    let mut writer = SliceWriter::new(&mut buf);
    same(&rt, writer.write(&[0x01]), Ok(()));
    same(
        &rt,
        writer.sequence(Length::ONE, |w| w.write_byte(0x07)),
        Ok(()),
    );
    same(&rt, writer.encode(&Tag::Null), Ok(()));
    same(
        &rt,
        buf.as_slice(),
        [0x01, 0x30, 0x01, 0x07, 0x05, 0xEE, 0xEE].as_slice(),
    );

    let mut buf = [0xEE; 3];
    same(&rt, Tag::Null.encode_to_slice(&mut buf)?, [0x05].as_slice());
    same(&rt, buf.as_slice(), [0x05, 0xEE, 0xEE].as_slice());
    let month = september()?;
    same(
        &rt,
        encode_value_to_slice(&mut buf, &month)?,
        [0x09].as_slice(),
    );
    same(&rt, buf.as_slice(), [0x09, 0xEE, 0xEE].as_slice());
    Ok(())
}
