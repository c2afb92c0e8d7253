use der_c::{Bits, ErrorKind, Oid, Reader, Tag, Time, Writer};

/// The octets that `write` writes.
fn written(write: impl FnOnce(&mut Writer) -> Result<(), der_c::Error>) -> Vec<u8> {
    let mut space = [0; 64];
    let mut writer = Writer::new(&mut space);
    write(&mut writer).unwrap();
    writer.finish().unwrap().to_vec()
}

#[test]
fn numbers() {
    let rows: [(&[u8], i64); 5] = [
        (&[2, 1, 0], 0),
        (&[2, 2, 0, 128], 128),
        (&[2, 1, 128], -128),
        (&[2, 2, 0xFF, 0x7F], -129),
        (&[2, 8, 0x80, 0, 0, 0, 0, 0, 0, 0], i64::MIN),
    ];
    for (octets, number) in rows {
        assert_eq!(Reader::der(octets).unwrap().int64(Tag::INTEGER).unwrap(), number);
        assert_eq!(written(|writer| writer.int64(Tag::INTEGER, number)), octets);
        let read = Reader::der(octets).unwrap().uint64(Tag::INTEGER);
        assert_eq!(read.ok(), u64::try_from(number).ok());
    }
    let mut reader = Reader::der(&[2, 2, 0, 1]).unwrap();
    let error = reader.integer(Tag::INTEGER).unwrap_err();
    assert_eq!(
        (error.kind(), error.position()),
        (ErrorKind::Value(Tag::INTEGER), Some(4))
    );
    assert_eq!(reader.finish().unwrap_err().kind(), ErrorKind::Failed);
}

#[test]
fn truths_and_nulls() {
    assert!(
        Reader::der(&[0x81, 1, 255])
            .unwrap()
            .boolean(Tag::context(1, false))
            .unwrap()
    );
    assert!(Reader::der(&[1, 1, 1]).unwrap().boolean(Tag::BOOLEAN).is_err());
    assert_eq!(written(|writer| writer.boolean(Tag::BOOLEAN, true)), [1, 1, 255]);
    assert_eq!(written(|writer| writer.null(Tag::NULL)), [5, 0]);
}

#[test]
fn bit_strings() {
    let octets = [3, 4, 6, 0x6E, 0x5D, 0xC0];
    let bits = Reader::der(&octets).unwrap().bit_string(Tag::BIT_STRING).unwrap();
    assert_eq!((bits.octets, bits.unused), (&octets[3..], 6));
    assert_eq!(written(|writer| writer.bit_string(Tag::BIT_STRING, bits)), octets);
    let mut space = [0; 8];
    let wrong = Bits {
        octets: &[1],
        unused: 1,
    };
    let error = Writer::new(&mut space).bit_string(Tag::BIT_STRING, wrong).unwrap_err();
    assert_eq!(error.kind(), ErrorKind::Value(Tag::BIT_STRING));
}

#[test]
fn object_identifiers() {
    let octets = [6, 3, 0x88, 0x37, 3];
    let oid = Reader::der(&octets).unwrap().oid(Tag::OBJECT_IDENTIFIER).unwrap();
    assert_eq!(oid.to_string(), "2.999.3");
    assert_eq!(oid.arcs(&mut [0; 4]).unwrap(), [2, 999, 3]);
    assert!(oid == *"2.999.3" && oid != *"2.999.4");
    let mut space = [0; 8];
    assert_eq!(Oid::from_text("2.999.3", &mut space).unwrap(), oid);
    assert_eq!(written(|writer| writer.oid(Tag::OBJECT_IDENTIFIER, "2.999.3")), octets);
    assert_eq!(written(|writer| writer.oid_of(Tag::OBJECT_IDENTIFIER, oid)), octets);
    for text in ["", "1", "3.1", "1.40", "1.2.", "1.02", "1.-2", "a"] {
        let error = Oid::from_text(text, &mut [0; 8]).unwrap_err();
        assert_eq!(error.kind(), ErrorKind::ObjectIdentifier, "{text}");
    }
    let large = "2.25.340282366920938463463374607431768211456";
    let error = Oid::from_text(large, &mut [0; 32]).unwrap_err();
    assert_eq!(error.kind(), ErrorKind::Overflow);
    let error = Oid::from_text(&format!("{large}."), &mut [0; 32]).unwrap_err();
    assert_eq!(error.kind(), ErrorKind::ObjectIdentifier);
}

#[test]
fn texts() {
    let octets = [0x0C, 5, 0x53, 0xC3, 0xB6, 0x68, 0x6E];
    let text = Reader::der(&octets)
        .unwrap()
        .text(Tag::UTF8_STRING, Tag::UTF8_STRING)
        .unwrap();
    assert_eq!(text.to_string(), "S\u{F6}hn");
    assert_eq!(format!("{text:?}"), "UTF8String(\"S\u{F6}hn\")");
    let bmp = [0x1E, 4, 0, 0x53, 0x20, 0xAC];
    let text = Reader::der(&bmp)
        .unwrap()
        .text(Tag::BMP_STRING, Tag::BMP_STRING)
        .unwrap();
    assert_eq!(text.chars().collect::<String>(), "S\u{20AC}");
    for wrong in [
        &[0x0C, 1, 0xC3][..],
        &[0x13, 1, b'*'],
        &[0x1E, 3, 0, 0x53, 0],
        &[0x12, 1, b'a'],
    ] {
        let tag = Tag(wrong[0].into());
        assert!(Reader::der(wrong).unwrap().text(tag, tag).is_err());
    }
}

#[test]
fn times() {
    let octets = b"\x17\x0D000229123000Z";
    let (time, seconds) = Reader::der(octets).unwrap().time(Tag::UTC_TIME, Tag::UTC_TIME).unwrap();
    assert_eq!(
        (time.to_string().as_str(), seconds),
        ("2000-02-29T12:30:00Z", 951827400)
    );
    assert_eq!(
        written(|writer| writer.time(Tag::UTC_TIME, Tag::UTC_TIME, time)),
        octets
    );
    assert_eq!(
        written(|writer| writer.time_seconds(Tag::UTC_TIME, Tag::UTC_TIME, seconds)),
        octets
    );
    let late = Time { year: 2050, ..time };
    let kind = Tag::GENERALIZED_TIME;
    assert_eq!(
        written(|writer| writer.time(kind, kind, Time { day: 28, ..late })),
        b"\x18\x0F20500228123000Z"
    );
    let mut space = [0; 32];
    for wrong in [
        Time { day: 28, ..late },
        Time { month: 13, ..time },
        Time { second: 60, ..time },
    ] {
        let error = Writer::new(&mut space)
            .time(Tag::UTC_TIME, Tag::UTC_TIME, wrong)
            .unwrap_err();
        assert_eq!(error.kind(), ErrorKind::Value(Tag::UTC_TIME));
    }
}
