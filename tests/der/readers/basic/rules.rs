//! What both rules treat equally, and what only the Distinguished Encoding Rules reject.
use super::*;
use crate::checks::{same, same_at, same_octets};
use der::TagNumber;
use crate::fixtures::encodings::{LENGTHS, OVERLONG_LENGTHS};

fn length_under_ber(alloc: Global, octets: &[u8]) -> Result<Length, Error> {
    Length::from_ber(alloc, octets)
}

fn length_under_der(alloc: Global, octets: &[u8]) -> Result<Length, Error> {
    Length::from_der(alloc, octets)
}

fn reader_under(rules: EncodingRules, octets: &[u8]) -> Result<SliceReader<'_>, Error> {
    SliceReader::new_with_encoding_rules(octets, rules)
}

#[test]
fn a_reader_has_the_rules_that_it_was_made_with(rt: HostRuntime) -> Result<(), Fail> {
    let reader = ber_reader(&[])?;
    same(&rt, reader.encoding_rules(), EncodingRules::Ber);
    same(&rt, reader.fork().encoding_rules(), EncodingRules::Ber);
    same(&rt, reader.place(), (0, 0, false));
    let der = EncodingRules::Der;
    let reader = reader_under(der, &[0x05])?;
    same(&rt, reader.encoding_rules(), der);
    same(&rt, reader.place(), (0, 1, false));
    same(&rt, der_reader(&[])?.encoding_rules(), der);
    Ok(())
}

#[test]
fn the_indefinite_form_is_refused_under_der(rt: HostRuntime) -> Result<(), Fail> {
    let rows: [&[u8]; 4] = [
        &[0x30, 0x80, 0x00, 0x00],
        &[0x30, 0x80],
        &[0x04, 0x80, 0x00, 0x00],
        &[0x30, 0x80, 0x30, 0x80],
    ];
    for octets in rows {
        let mut reader = der_reader(octets)?;
        same(&rt, peek_header(&reader), Err(indefinite(2)));
        same(&rt, next_header(&mut reader), Err(indefinite(2)));
        same(&rt, reader.place(), (2, octets.len() as u32, true));
    }
    let refused = length_under_der(rt.alloc(), &[0x80, 0x00, 0x00]);
    same(&rt, refused, Err(indefinite(1)));
    Ok(())
}

#[test]
fn definite_lengths_are_read_alike_under_both_rules(rt: HostRuntime) {
    for (number, octets) in LENGTHS {
        let length = Length::new(number);
        same_at(
            &rt,
            number,
            length_under_ber(rt.alloc(), octets),
            Ok(length),
        );
        same_at(
            &rt,
            number,
            length_under_der(rt.alloc(), octets),
            Ok(length),
        );
    }
}

// The Basic Encoding Rules allow lengths that are not the shortest; this library does not.
#[test]
fn lengths_that_are_not_the_shortest_are_refused_under_both_rules(rt: HostRuntime) {
    for (octets, position) in OVERLONG_LENGTHS {
        let error = ErrorKind::Overlength.at(Length::new(position));
        same_at(
            &rt,
            position,
            length_under_ber(rt.alloc(), octets),
            Err(error),
        );
        same_at(
            &rt,
            position,
            length_under_der(rt.alloc(), octets),
            Err(error),
        );
    }
}

#[test]
fn a_header_with_a_wrong_length_is_refused_under_both_rules(rt: HostRuntime) -> Result<(), Fail> {
    let rows: [(&[u8], u32); 4] = [
        (&[0x04, 0x81, 0x7F], 3),
        (&[0x04, 0x82, 0x00, 0x80], 4),
        (&[0x04, 0x85], 2),
        (&[0x04, 0xFF, 0x01], 2),
    ];
    for rules in [EncodingRules::Ber, EncodingRules::Der] {
        for (octets, position) in rows {
            let error = incorrect(Tag::OctetString, position);
            let mut reader = reader_under(rules, octets)?;
            same_at(&rt, rules, next_header(&mut reader), Err(error));
            let end = octets.len() as u32;
            same_at(&rt, rules, reader.place(), (position, end, true));
        }
    }
    Ok(())
}

#[test]
fn definite_headers_are_read_alike_under_both_rules(rt: HostRuntime) {
    let longest = TagNumber(4294967295).context_specific(true);
    let rows: [(&[u8], Tag, u32); 3] = [
        (&[0x05, 0x00], Tag::Null, 0),
        (&[0x30, 0x82, 0x01, 0x00], Tag::Sequence, 256),
        (
            &[
                0xBF, 0x8F, 0xFF, 0xFF, 0xFF, 0x7F, 0x84, 0xFF, 0xFF, 0xFF, 0xFF,
            ],
            longest,
            4294967295,
        ),
    ];
    for (octets, tag, number) in rows {
        let header = Header::new(tag, Length::new(number));
        same_at(&rt, tag, header_of(rt.alloc(), octets), Ok(header));
        same_at(&rt, tag, Header::from_der(rt.alloc(), octets), Ok(header));
    }
}

#[test]
fn under_ber_a_definite_element_is_borrowed_and_a_truncated_one_rejected(rt: HostRuntime) -> Result<(), Fail> {
    let octets = [0x30, 0x02, 0x05, 0x00, 0xFF];
    let mut reader = ber_reader(&octets)?;
    let element = [0x30, 0x02, 0x05, 0x00];
    same_octets(&rt, next_element(&mut reader)?, &element);
    same(&rt, reader.place(), (4, 5, false));
    let mut cut = ber_reader(&[0x24, 0x02])?;
    same(&rt, refused_element(&mut cut), Some(incomplete(4, 2, 0)));
    same(&rt, cut.place(), (0, 2, true));
    Ok(())
}
