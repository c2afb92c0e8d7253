use der_c::{Error, ErrorKind, Reader, Tag, Writer, compare, element_length};
use std::cmp::Ordering;

#[test]
fn errors_are_reported() {
    let texts = [
        (&[0x30, 5, 0x1f, 2, 3, 4, 5][..], "", None),
        (
            &[0x02, 0x81, 0x7f],
            "incorrect length for INTEGER at DER byte 3",
            Some(3),
        ),
        (
            &[0x07],
            "unknown/unsupported ASN.1 DER tag: 0x07 at DER byte 1",
            Some(1),
        ),
        (
            &[0x04, 5, 1],
            "ASN.1 DER message is incomplete: expected 7, actual 3 at DER byte 2",
            Some(2),
        ),
        (
            &[0x30, 0x80, 0, 0],
            "indefinite length disallowed/malformed at DER byte 2",
            Some(2),
        ),
        (
            &[],
            "ASN.1 DER message is incomplete: expected 1, actual 0 at DER byte 0",
            Some(0),
        ),
    ];
    for (octets, text, position) in texts {
        let answer = Reader::der(octets).unwrap().read();
        match answer {
            Ok(_) => assert_eq!(text, ""),
            Err(error) => {
                assert_eq!(error.to_string(), text);
                assert_eq!(error.position(), position);
            }
        }
    }
    let mut reader = Reader::der(&[0x5f, 0x81, 0x01, 0]).unwrap();
    let error = reader.expect(Tag::context(1000, true)).unwrap_err();
    assert_eq!(
        error.to_string(),
        "unexpected ASN.1 DER tag: expected CONTEXT-SPECIFIC [1000] (constructed), got APPLICATION [129] (primitive) at DER byte 0"
    );
    // the element was not consumed
    assert_eq!(reader.read().unwrap().tag(), Tag(0x5f + 256 * 129));
    assert!(reader.finish().is_ok());
    let error = Reader::der(&[5, 0, 5, 0]).unwrap().finish().unwrap_err();
    assert_eq!(
        error.kind(),
        ErrorKind::TrailingData {
            decoded: 0,
            remaining: 4
        }
    );
}

#[test]
fn an_error_ends_the_elements() {
    let mut elements = Reader::der(&[5, 0, 5, 0, 7]).unwrap().elements();
    assert!(elements.next().unwrap().is_ok());
    assert!(elements.next().unwrap().is_ok());
    assert!(elements.next().unwrap().is_err());
    assert!(elements.next().is_none());
}

#[test]
fn indefinite_lengths() {
    let octets = [0x30, 0x80, 0x24, 0x80, 4, 1, 9, 0, 0, 0, 0, 5, 0];
    let mut reader = Reader::ber(&octets).unwrap();
    let mut inside = reader.enter(Tag::SEQUENCE).unwrap();
    let string = inside.read().unwrap();
    assert!(string.is_constructed() && string.is_indefinite());
    assert_eq!((string.tag(), string.contents()), (Tag::OCTET_STRING, &[4, 1, 9][..]));
    inside.finish().unwrap();
    assert_eq!(reader.read().unwrap().tag(), Tag::NULL);
    reader.finish().unwrap();
}

#[test]
fn elements_are_compared() {
    let cmp = |a: &[u8], b: &[u8]| compare(a, b);
    assert_eq!(cmp(&[4, 1, 255], &[4, 2, 0, 0]).unwrap(), Ordering::Less);
    assert_eq!(cmp(&[4, 1, 255], &[4, 1, 255]).unwrap(), Ordering::Equal);
    assert_eq!(cmp(&[5, 0], &[4, 1, 255]).unwrap(), Ordering::Greater);
    let error = cmp(&[5, 0, 0], &[5, 0]).unwrap_err();
    assert_eq!(
        error.kind(),
        ErrorKind::TrailingData {
            decoded: 2,
            remaining: 1
        }
    );
}

#[test]
fn what_is_written_is_read() {
    let mut buffer = [0xee; 300];
    let mut writer = Writer::new(&mut buffer);
    writer.header(Tag::SEQUENCE, 203 + 3).unwrap();
    writer.element(Tag::OCTET_STRING, &[7; 200]).unwrap();
    writer.element(Tag::INTEGER, &[1]).unwrap();
    assert_eq!(writer.written(), 209);
    let octets = writer.finish().unwrap();
    let mut reader = Reader::der(octets).unwrap();
    let mut inside = reader.enter(Tag::SEQUENCE).unwrap();
    assert_eq!(inside.expect(Tag::OCTET_STRING).unwrap().contents(), [7; 200]);
    assert_eq!(inside.expect(Tag::INTEGER).unwrap().contents(), [1]);
    inside.finish().unwrap();
    reader.finish().unwrap();
    let mut small = [0; 4];
    let mut writer = Writer::new(&mut small);
    let error = writer.element(Tag::OCTET_STRING, &[0; 3]).unwrap_err();
    assert_eq!(error.kind(), ErrorKind::Overlength);
    assert_eq!(error.position(), Some(5));
}

#[test]
fn a_word_that_is_no_tag_is_refused() {
    // a number below 31 in the long form, a number next to a short form, an unknown universal tag,
    // a universal tag in the long form, a number past 32 bits
    for word in [0x9F + 256 * 30, 0x80 + 256, 0x07, 0x1F + 256 * 40, 0x9F + (1 << 40)] {
        let mut buffer = [0; 20];
        let mut writer = Writer::new(&mut buffer);
        let error = writer.header(Tag(word), 0).unwrap_err();
        assert_eq!(error.kind(), ErrorKind::TagNumberInvalid);
        assert_eq!(writer.element(Tag::NULL, &[]).unwrap_err().kind(), ErrorKind::Failed);
        assert!(element_length(Tag(word), 0).is_err());
    }
    // the identifier of [1000] has three octets
    assert_eq!(element_length(Tag::context(1000, false), 200).unwrap(), 3 + 2 + 200);
    assert_eq!(
        element_length(Tag::NULL, u32::MAX).unwrap_err().kind(),
        ErrorKind::Overflow
    );
}

#[test]
fn bodies_are_scanned() {
    let mut reader = Reader::ber(&[0x30, 0x80, 5, 0, 0, 0, 5, 0]).unwrap();
    let mut copy = Reader::ber(&[5, 0, 0, 0, 5, 0]).unwrap();
    assert_eq!(copy.scan().unwrap(), 4);
    assert_eq!(copy.read().unwrap().tag(), Tag::NULL);
    assert_eq!(reader.header().unwrap().length, 4);
    let mut strict = Reader::der(&[0, 0]).unwrap();
    assert_eq!(strict.scan().unwrap_err().kind(), ErrorKind::EncodingRules);
    strict = Reader::der(&[5, 0, 5, 0]).unwrap();
    strict.skip().unwrap();
    assert_eq!(strict.elements().count(), 1);
}

#[test]
fn elements_are_written_inside_others() {
    let mut buffer = [0xee; 300];
    let mut writer = Writer::new(&mut buffer);
    writer
        .inside(Tag::SEQUENCE, |outer| {
            outer.inside(Tag::context(1000, true), |inner| {
                inner.element(Tag::OCTET_STRING, &[7; 200])
            })?;
            outer.element(Tag::NULL, &[])
        })
        .unwrap();
    let octets = writer.finish().unwrap();
    // the string has 203 octets, with the header of [1000] 208, and then the NULL
    let mut wanted = vec![0x30, 0x81, 210, 0xBF, 0x87, 0x68, 0x81, 203, 4, 0x81, 200];
    wanted.extend([7; 200]);
    wanted.extend([5, 0]);
    assert_eq!(octets, wanted);
    // enough space for all but the second length octet that a length of 128 needs
    for more in [0, 1] {
        let mut buffer = [0xee; 2 + 128 + 1];
        let mut writer = Writer::new(&mut buffer[..130 + more]);
        let answer = writer.inside(Tag::SET, |inside| inside.write(&[9; 128]));
        if more == 0 {
            assert_eq!(answer.unwrap_err().kind(), ErrorKind::Overlength);
            assert_eq!(writer.finish().unwrap_err().kind(), ErrorKind::Failed);
        } else {
            answer.unwrap();
            assert_eq!(writer.finish().unwrap()[..4], [0x31, 0x81, 128, 9]);
        }
    }
    let mut buffer = [0; 8];
    let mut writer = Writer::new(&mut buffer);
    assert_eq!(
        writer.inside(Tag(7), |_| Ok::<_, Error>(())).unwrap_err().kind(),
        ErrorKind::TagNumberInvalid
    );
}

#[test]
fn an_absent_element_changes_nothing() {
    let mut reader = Reader::der(&[2, 1, 7]).unwrap();
    assert_eq!(reader.optional(Tag::BOOLEAN).unwrap(), None);
    assert_eq!(reader.position(), 0);
    assert_eq!(reader.optional(Tag::INTEGER).unwrap().unwrap().contents(), [7]);
    assert_eq!(reader.optional(Tag::INTEGER).unwrap(), None);
    assert_eq!(reader.position(), 3);
    reader.finish().unwrap();
}

#[test]
fn a_tag_that_is_peeked_at_is_not_consumed() {
    let reader = Reader::ber(&[0x24, 0x80]).unwrap();
    assert_eq!(reader.peek(), Ok(Tag::OCTET_STRING));
    assert!(reader.next_is(Tag::OCTET_STRING) && !reader.next_is(Tag(0x24)));
    assert_eq!(reader.position(), 0);
    let mut reader = Reader::der(&[]).unwrap();
    assert_eq!(
        reader.peek().unwrap_err().kind(),
        ErrorKind::Incomplete { expected: 1, actual: 0 }
    );
    reader.finish().unwrap();
    reader.skip().unwrap_err();
    assert_eq!(reader.peek().unwrap_err().kind(), ErrorKind::Failed);
    assert!(!reader.next_is(Tag::NULL));
}

#[test]
fn values_that_are_missing_are_none() {
    let mut reader = Reader::der(&[2, 1, 7, 12, 1, 65]).unwrap();
    assert_eq!(reader.read_optional(Tag::BOOLEAN, Reader::boolean).unwrap(), None);
    assert_eq!(reader.read_optional(Tag::INTEGER, Reader::uint64).unwrap(), Some(7));
    let text = |it: &mut Reader<'static>, tag| it.text(tag, Tag::UTF8_STRING);
    assert_eq!(
        reader.read_optional(Tag::UTF8_STRING, text).unwrap().unwrap().octets(),
        b"A"
    );
    assert_eq!(reader.read_optional(Tag::UTF8_STRING, text).unwrap(), None);
    reader.finish().unwrap();
}

#[test]
fn a_faulty_value_is_not_a_missing_one() {
    for octets in [&[2, 0][..], &[2, 5, 1], &[0x1F, 1], &[4, 0x81]] {
        let mut reader = Reader::der(octets).unwrap();
        let error = reader.read_optional(Tag::INTEGER, Reader::uint64).unwrap_err();
        assert_ne!(error.kind(), ErrorKind::Failed);
        let again = reader.read_optional(Tag::INTEGER, Reader::uint64);
        assert_eq!(again.unwrap_err().kind(), ErrorKind::Failed);
    }
}

#[test]
fn an_error_makes_the_reader_fail() {
    for octets in [&[0x30, 5, 2, 1, 7][..], &[4, 0x84, 255, 255, 255, 255, 2, 1, 7]] {
        let mut reader = Reader::der(octets).unwrap();
        let error = reader.enter(Tag(octets[0].into())).unwrap_err();
        let mut other = Reader::der(octets).unwrap();
        assert_eq!(other.expect(Tag(octets[0].into())).unwrap_err(), error);
        assert_eq!(reader.expect(Tag::INTEGER).unwrap_err().kind(), ErrorKind::Failed);
        assert_eq!(reader.finish().unwrap_err().kind(), ErrorKind::Failed);
    }
}

#[test]
fn whole_octets_of_an_element() {
    let octets = [5, 0, 0x24, 0x80, 4, 1, 9, 0, 0, 5, 0];
    let mut reader = Reader::ber(&octets).unwrap();
    reader.skip().unwrap();
    let string = reader.read().unwrap();
    assert_eq!(reader.octets_of(&string).unwrap(), &octets[2..9]);
    let other = [5, 0];
    assert_eq!(
        Reader::der(&other).unwrap().octets_of(&string).unwrap_err().kind(),
        ErrorKind::Reader
    );
}

#[derive(Debug, PartialEq)]
enum Mine {
    Refused(Error),
    Mine,
}

impl From<Error> for Mine {
    fn from(error: Error) -> Self {
        Mine::Refused(error)
    }
}

#[test]
fn an_error_inside_makes_the_writer_fail() {
    let mut buffer = [0; 16];
    let mut writer = Writer::new(&mut buffer);
    let answer = writer.inside(Tag::SEQUENCE, |inside| {
        inside.element(Tag::NULL, &[])?;
        Err(Mine::Mine)
    });
    assert_eq!(answer, Err(Mine::Mine));
    assert_eq!(writer.finish().unwrap_err().kind(), ErrorKind::Failed);
}

#[test]
fn a_buffer_need_not_be_initialised() {
    let mut buffer = [core::mem::MaybeUninit::uninit(); 8];
    let mut writer = Writer::uninit(&mut buffer);
    writer
        .inside(Tag::SEQUENCE, |inside| inside.element(Tag::INTEGER, &[7]))
        .unwrap();
    assert_eq!(writer.finish().unwrap(), [0x30, 3, 2, 1, 7]);
}

#[test]
fn a_set_is_sorted() {
    let mut buffer = [0; 32];
    let mut writer = Writer::new(&mut buffer);
    let mut elements: [&[u8]; 3] = [&[2, 1, 9], &[2, 2, 1, 0], &[2, 1, 3]];
    writer.set_of(Tag::SET, &mut elements).unwrap();
    assert_eq!(writer.finish().unwrap(), [0x31, 10, 2, 1, 3, 2, 1, 9, 2, 2, 1, 0]);
}

#[test]
fn values_are_printed() {
    assert_eq!(Tag::context(31, false).to_string(), "[31]");
    assert_eq!(format!("{:?}", Tag::UTF8_STRING), "Tag(UTF8String)");
    let element = Reader::der(&[4, 2, 0xAB, 1]).unwrap().read().unwrap();
    assert_eq!(
        format!("{element:?}"),
        "Element { tag: Tag(OCTET STRING), start: 0, contents: ab01 }"
    );
}

/// Readers, writers and errors go to other threads.
#[test]
fn threads() {
    fn is_send<T: Send + Sync>() {}
    is_send::<Reader>();
    is_send::<Writer>();
    is_send::<Error>();
    is_send::<der_c::Certificate>();
    is_send::<der_c::Items<der_c::DistributionPoint>>();
    is_send::<der_c::Characters>();
}
