//! SEQUENCEs that are written into a slice.

use super::*;
use crate::checks::{holds, same, same_at};
use der::{SliceWriter, Writer};
use test_fixtures::sequence::encode_in_sequence;

#[test]
fn a_sequence_is_filled(rt: HostRuntime) -> Result<(), Fail> {
    let mut buf = [0; 5];
    let mut writer = SliceWriter::new(&mut buf);
    same(
        &rt,
        writer.sequence(Length::new(2), |w| w.write(&[0x05, 0x00])),
        Ok(()),
    );
    holds(&rt, !writer.is_failed());
    same(&rt, writer.write_byte(0x01), Ok(()));
    same(
        &rt,
        writer.finish()?,
        [0x30, 0x02, 0x05, 0x00, 0x01].as_slice(),
    );
    Ok(())
}

#[test]
fn a_sequence_may_fill_the_buffer(rt: HostRuntime) -> Result<(), Fail> {
    let mut buf = [0; 4];
    let mut writer = SliceWriter::new(&mut buf);
    same(
        &rt,
        writer.sequence(Length::new(2), |w| w.write(&[0x05, 0x00])),
        Ok(()),
    );
    same(&rt, writer.finish()?, [0x30, 0x02, 0x05, 0x00].as_slice());
    Ok(())
}

#[test]
fn a_sequence_in_a_sequence_is_written(rt: HostRuntime) -> Result<(), Fail> {
    let mut buf = [0; 8];
    let mut writer = SliceWriter::new(&mut buf);
    let null = Header::new(Tag::Null, Length::ZERO);
    same(
        &rt,
        writer.sequence(
            Length::new(4),
            |w| encode_in_sequence(w, Length::new(2), &null),
        ),
        Ok(()),
    );
    same(&rt, writer.encode(&null), Ok(()));
    same(
        &rt,
        writer.finish()?,
        [0x30, 0x04, 0x30, 0x02, 0x05, 0x00, 0x05, 0x00].as_slice(),
    );
    Ok(())
}

#[test]
fn a_sequence_that_is_not_filled_is_refused(rt: HostRuntime) {
    let mut buf = [0; 4];
    let mut writer = SliceWriter::new(&mut buf);
    let incorrect = ErrorKind::Length { tag: Tag::Sequence };
    same(
        &rt,
        writer.sequence(Length::new(2), |w| w.write_byte(0x05)),
        Err(incorrect.at(Length::new(4))),
    );
    holds(&rt, writer.is_failed());
    let failed = ErrorKind::Failed.at(Length::new(4));
    holds(
        &rt,
        matches!(writer.finish(), Err(error) if error == failed),
    );
}

#[test]
fn a_sequence_whose_writer_has_failed_is_refused(rt: HostRuntime) {
    let mut buf = [0; 4];
    let mut writer = SliceWriter::new(&mut buf);
    let answer = writer.sequence(Length::new(2), |w| match w.write(&[0x05, 0x00, 0x00]) {
        Ok(()) => Ok(()),
        Err(_) => Ok(()),
    });
    same(&rt, answer, Err(ErrorKind::Failed.at(Length::ZERO)));
    holds(&rt, writer.is_failed());
}

#[test]
fn a_refusal_inside_a_sequence_fails_the_writer(rt: HostRuntime) {
    let mut buf = [0; 6];
    let mut writer = SliceWriter::new(&mut buf);
    same(
        &rt,
        writer.sequence(Length::new(2), |w| w.write(&[0x05, 0x00, 0x00])),
        Err(ErrorKind::Overlength.at(Length::new(3))),
    );
    holds(&rt, writer.is_failed());
    let failed = ErrorKind::Failed.at(Length::new(4));
    same(&rt, writer.write_byte(0x01), Err(failed));
    same(&rt, writer.sequence(Length::ZERO, |_w| Ok(())), Err(failed));
}

// A SEQUENCE of which one octet of two is written, and then writing fails.
fn refused_within(writer: &mut SliceWriter<'_>) -> Result<(), Error>
{
    writer.sequence(Length::new(2), |w| match w.write_byte(0x05) {
        Ok(()) => Err(ErrorKind::DateTime.to_error()),
        Err(error) => Err(error),
    })
}

// The part is written by a function that ignores the error.
fn ignored_within(writer: &mut SliceWriter<'_>) -> Result<(), Error>
{
    match refused_within(writer) {
        Ok(()) => Ok(()),
        Err(_) => Ok(()),
    }
}

#[test]
fn a_refusal_in_a_sequence_in_a_sequence_fails_the_writer(rt: HostRuntime) {
    let mut buf = [0; 8];
    let mut writer = SliceWriter::new(&mut buf);
    let refused = writer.sequence(Length::new(4), refused_within);
    same(&rt, refused, Err(ErrorKind::DateTime.to_error()));
    holds(&rt, writer.is_failed());
    // the inner part is after two headers
    let failed = ErrorKind::Failed.at(Length::new(6));
    holds(
        &rt,
        matches!(writer.finish(), Err(error) if error == failed),
    );
}

#[test]
fn an_ignored_error_in_a_sequence_is_reported_as_failed(rt: HostRuntime) {
    let mut buf = [0; 8];
    let mut writer = SliceWriter::new(&mut buf);
    let refused = writer.sequence(Length::new(4), ignored_within);
    same(&rt, refused, Err(ErrorKind::Failed.at(Length::new(4))));
    holds(&rt, writer.is_failed());
    let failed = ErrorKind::Failed.at(Length::new(6));
    holds(
        &rt,
        matches!(writer.finish(), Err(error) if error == failed),
    );
}

// A SEQUENCE whose contents are not written.
fn sequence_of_nothing(writer: &mut SliceWriter<'_>, len: Length) -> Result<(), Error> {
    writer.sequence(len, |_writer| Ok(()))
}

#[test]
fn a_sequence_is_rejected_where_there_is_no_space(rt: HostRuntime) {
    let rows = [
        (10, Length::MAX, ErrorKind::Overflow.at(Length::new(6))),
        (
            10,
            Length::new(9),
            ErrorKind::Overlength.at(Length::new(11)),
        ),
        (1, Length::ZERO, ErrorKind::Overlength.at(Length::new(2))),
    ];
    for (space, len, want) in rows {
        let mut buf = [0; 10];
        let mut writer = SliceWriter::new(&mut buf[..space]);
        same_at(&rt, len, sequence_of_nothing(&mut writer, len), Err(want));
        holds(&rt, writer.is_failed());
    }
}
