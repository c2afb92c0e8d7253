//! What the types have for users of the standard library.
use der_c::{Bits, Certificate, Element, Error, ErrorKind, ObjectIdentifier, Oid, Reader, Tag, Text, Time};
use std::collections::{BTreeSet, HashSet};
use std::hash::Hash;

/// Times of RFC 3339, 5.8, in UTC and without fractions, and the limits; each with the seconds of `date -u -d TEXT +%s`.
const TIMES: [(&str, i64); 7] = [
    ("1985-04-12T23:20:50Z", 482_196_050),
    ("1970-01-01T00:00:00Z", 0),
    ("1969-12-31T23:59:59Z", -1),
    ("2000-02-29T12:00:00Z", 951_825_600),
    ("1900-03-01T00:00:00Z", -2_203_891_200),
    ("0000-01-01T00:00:00Z", -62_167_219_200),
    ("9999-12-31T23:59:59Z", 253_402_300_799),
];

#[test]
fn times_are_parsed_and_printed() {
    for (text, seconds) in TIMES {
        let time: Time = text.parse().unwrap();
        assert_eq!((time.to_string().as_str(), time.unix_seconds()), (text, Ok(seconds)));
        assert_eq!(Time::from_unix_seconds(seconds), Some(time));
    }
    for text in [
        "",
        "1985-04-12T23:20:50",
        "1985-04-12T23:20:50.5Z",
        "1985-04-12 23:20:50Z",
        "1985-04-12T23:20:50+00:00",
        "1985-4-12T23:20:50Z",
        "1985-04-31T23:20:50Z",
        "1985-02-29T23:20:50Z",
        "1985-13-12T23:20:50Z",
        "1985-00-12T23:20:50Z",
        "1985-04-12T24:20:50Z",
        "1985-04-12T23:60:50Z",
        "1985-04-12T23:20:60Z",
        "+985-04-12T23:20:50Z",
        "1985-04-12T23:20:5éZ",
    ] {
        assert_eq!(text.parse::<Time>().unwrap_err().kind(), ErrorKind::DateTime, "{text}");
    }
    let no_day = Time {
        month: 2,
        day: 30,
        ..TIMES[0].0.parse().unwrap()
    };
    assert!(no_day.unix_seconds().is_err());
}

#[test]
#[cfg(feature = "std")]
fn times_are_those_of_the_system() {
    use std::time::{Duration, SystemTime};
    for (text, seconds) in TIMES {
        let time: Time = text.parse().unwrap();
        let system = SystemTime::try_from(time).unwrap();
        let distance = Duration::from_secs(seconds.unsigned_abs());
        let wanted = match seconds {
            0.. => SystemTime::UNIX_EPOCH + distance,
            _ => SystemTime::UNIX_EPOCH - distance,
        };
        assert_eq!((system, Time::try_from(system)), (wanted, Ok(time)));
        // a fraction is cut off
        assert_eq!(Time::try_from(system + Duration::from_millis(999)), Ok(time));
    }
    let late = SystemTime::UNIX_EPOCH + Duration::from_secs(253_402_300_800);
    assert_eq!(Time::try_from(late).unwrap_err().kind(), ErrorKind::DateTime);
    let early = SystemTime::UNIX_EPOCH - Duration::from_secs(62_167_219_200) - Duration::from_nanos(1);
    assert_eq!(Time::try_from(early).unwrap_err().kind(), ErrorKind::DateTime);
}

#[test]
fn object_identifiers_own_their_octets() {
    let identifier: ObjectIdentifier = "1.2.840.113549".parse().unwrap();
    // X.690 has no such example; these octets are in RFC 8017, appendix A.1: 2A 86 48 86 F7 0D
    assert_eq!(identifier.as_oid().contents(), [0x2A, 0x86, 0x48, 0x86, 0xF7, 0x0D]);
    let octets = [6, 6, 0x2A, 0x86, 0x48, 0x86, 0xF7, 0x0D];
    let oid = Reader::der(&octets).unwrap().oid(Tag::OBJECT_IDENTIFIER).unwrap();
    assert_eq!(identifier, oid);
    assert_eq!(oid, identifier);
    assert_eq!(identifier, *"1.2.840.113549");
    assert_eq!(ObjectIdentifier::try_from(oid), Ok(identifier));
    assert_eq!(Oid::from(&identifier), oid);
    assert_eq!(
        (identifier.to_string(), format!("{identifier:?}")),
        (oid.to_string(), "ObjectIdentifier(1.2.840.113549)".to_string())
    );
    let others: Vec<ObjectIdentifier> = ["1.2", "2.999", "1.2.840"]
        .iter()
        .map(|it| it.parse().unwrap())
        .collect();
    let sorted: Vec<String> = BTreeSet::from_iter(others).iter().map(|it| it.to_string()).collect();
    assert_eq!(sorted, ["1.2", "1.2.840", "2.999"]);
    for text in ["", "1", "3.1", "1.2."] {
        assert_eq!(
            text.parse::<ObjectIdentifier>().unwrap_err().kind(),
            ErrorKind::ObjectIdentifier
        );
    }
    let long = |count: usize| format!("1.2{}", ".3".repeat(count)).parse::<ObjectIdentifier>();
    assert_eq!(long(62).unwrap().as_oid().contents().len(), 63);
    assert_eq!(long(63).unwrap_err().kind(), ErrorKind::Overlength);
    let many = [&[6, 64, 0x2A][..], &[3; 63]].concat();
    let oid = Reader::der(&many).unwrap().oid(Tag::OBJECT_IDENTIFIER).unwrap();
    assert_eq!(
        ObjectIdentifier::try_from(oid).unwrap_err().kind(),
        ErrorKind::Overlength
    );
}

/// Two equal values have the same hash, so a set has one of them.
fn same<T: Eq + Hash>(first: T, second: T) {
    assert_eq!(HashSet::from([first, second]).len(), 1);
}

#[test]
fn equal_values_have_equal_hashes() {
    let octets = [2, 1, 7, 5, 0];
    let reader = Reader::der(&octets).unwrap();
    same(reader, reader);
    let read = || -> Result<Element, Error> { Reader::der(&octets)?.read() };
    same(read(), read());
    let bits = Bits {
        octets: &octets,
        unused: 0,
    };
    same(bits, bits);
    fn is_hash<T: Hash>() {}
    is_hash::<Certificate>();
    is_hash::<der_c::RevocationList>();
    is_hash::<der_c::Request>();
    is_hash::<der_c::KeyUsage>();
    is_hash::<der_c::BasicConstraints>();
    is_hash::<der_c::Revoked>();
}

#[test]
fn iterators_say_how_many_items_are_left() {
    let octets = [2, 1, 7, 5, 0, 1];
    let mut elements = Reader::der(&octets).unwrap().elements();
    for wanted in [(1, Some(3)), (1, Some(2)), (1, Some(1)), (0, Some(0))] {
        assert_eq!(elements.size_hint(), wanted);
        elements.next();
    }
    for (tag, contents, hint) in [
        (Tag::UTF8_STRING, "aé€".as_bytes(), (2, Some(6))),
        (Tag::IA5_STRING, b"abc", (3, Some(3))),
        (Tag::BMP_STRING, &[0, 0x61, 0x20, 0xAC], (2, Some(2))),
    ] {
        let octets = [&[tag.0 as u8, contents.len() as u8], contents].concat();
        let text: Text = Reader::der(&octets).unwrap().text(tag, tag).unwrap();
        assert_eq!(text.chars().size_hint(), hint);
        assert_eq!(text.chars().collect::<String>(), text.to_string());
    }
}

/// Under BER, an OCTET STRING in segments has the tag of one in a piece.
#[test]
fn an_element_in_segments_is_another_one() {
    let read = |octets: &'static [u8]| Reader::ber(octets).unwrap().read().unwrap();
    let (whole, segments) = (read(&[4, 2, 4, 0]), read(&[0x24, 2, 4, 0]));
    assert_eq!((whole.tag(), whole.contents()), (segments.tag(), segments.contents()));
    assert_ne!(whole, segments);
}
