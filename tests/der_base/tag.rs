//! Tags and tag numbers.
use crate::checks::{holds, same, same_at};
use test_fixtures::recorder::recorded;
use der::{Class, ErrorKind, Tag, TagNumber};
use std::alloc::Global;
use std::cmp::Ordering;
use std::process::Abort;
use std::test::Fail;

/// The universal tags to `SEQUENCE` (X.680 8.6, table 1), each with its number and printed name.
const TO_SEQUENCE: [(Tag, u32, &str); 11] = [
    (Tag::Boolean, 1, "BOOLEAN"),
    (Tag::Integer, 2, "INTEGER"),
    (Tag::BitString, 3, "BIT STRING"),
    (Tag::OctetString, 4, "OCTET STRING"),
    (Tag::Null, 5, "NULL"),
    (Tag::ObjectIdentifier, 6, "OBJECT IDENTIFIER"),
    (Tag::Real, 9, "REAL"),
    (Tag::Enumerated, 10, "ENUMERATED"),
    (Tag::Utf8String, 12, "UTF8String"),
    (Tag::RelativeOid, 13, "RELATIVE OID"),
    (Tag::Sequence, 16, "SEQUENCE"),
];

/// The universal tags after `SEQUENCE`, each with its number and its name.
const FROM_SET: [(Tag, u32, &str); 11] = [
    (Tag::Set, 17, "SET"),
    (Tag::NumericString, 18, "NumericString"),
    (Tag::PrintableString, 19, "PrintableString"),
    (Tag::TeletexString, 20, "TeletexString"),
    (Tag::VideotexString, 21, "VideotexString"),
    (Tag::Ia5String, 22, "IA5String"),
    (Tag::UtcTime, 23, "UTCTime"),
    (Tag::GeneralizedTime, 24, "GeneralizedTime"),
    (Tag::VisibleString, 26, "VisibleString"),
    (Tag::GeneralString, 27, "GeneralString"),
    (Tag::BmpString, 30, "BMPString"),
];

fn universal(
    rt: &impl Abort,
    alloc: Global,
    tag: Tag,
    number: u32,
    name: &str,
) -> Result<(), Fail> {
    let is_constructed = number == 16 || number == 17;
    same_at(rt, name, tag.class(), Class::Universal);
    same_at(rt, name, tag.number().value(), number);
    same_at(rt, name, tag.is_constructed(), is_constructed);
    holds(rt, tag.is_universal() && !tag.is_application());
    holds(rt, !tag.is_context_specific() && !tag.is_private());
    same(rt, tag.to_string(alloc)?.as_str(), name);
    Ok(())
}

#[test]
fn universal_tags_tell_their_class_number_bit_and_name(rt: HostRuntime) -> Result<(), Fail> {
    for (tag, number, name) in TO_SEQUENCE {
        universal(&rt, rt.alloc(), tag, number, name)?;
    }
    for (tag, number, name) in FROM_SET {
        universal(&rt, rt.alloc(), tag, number, name)?;
    }
    Ok(())
}

#[test]
fn tags_of_other_classes_are_printed_with_number_and_bit(rt: HostRuntime) -> Result<(), Fail> {
    let number = TagNumber::from(4294967295);
    same(&rt, number.to_string(rt.alloc())?.as_str(), "4294967295");
    let rows = [
        (
            TagNumber::new(33).application(true),
            "APPLICATION [33] (constructed)",
        ),
        (
            TagNumber::new(0).context_specific(false),
            "CONTEXT-SPECIFIC [0] (primitive)",
        ),
        (number.private(false), "PRIVATE [4294967295] (primitive)"),
    ];
    for (tag, text) in rows {
        same(&rt, tag.to_string(rt.alloc())?.as_str(), text);
    }
    Ok(())
}

#[test]
fn debug_prints_a_tag_with_its_number_in_hexadecimal(rt: HostRuntime) -> Result<(), Fail> {
    let rows = [
        (
            TagNumber::from(4294967295).private(false),
            "Tag(0xffffffff: PRIVATE [4294967295] (primitive))",
        ),
        (Tag::Sequence, "Tag(0x10: SEQUENCE)"),
        (Tag::Boolean, "Tag(0x01: BOOLEAN)"),
    ];
    for (tag, text) in rows {
        same(&rt, format!(in rt.alloc(); "{tag:?}")?.as_str(), text);
    }
    Ok(())
}

#[test]
fn tags_are_ordered_by_variant_then_bit_then_number(rt: HostRuntime) {
    let ascending = [
        Tag::Boolean,
        Tag::RelativeOid,
        Tag::Sequence,
        Tag::Set,
        Tag::NumericString,
        Tag::BmpString,
        TagNumber(7).application(false),
        TagNumber(2).application(true),
        TagNumber(1).context_specific(false),
        TagNumber(2).context_specific(false),
        TagNumber(0).private(true),
    ];
    for k in 1..ascending.len() {
        same_at(&rt, k, ascending[k - 1].cmp(&ascending[k]), Ordering::Less);
    }
}

#[test]
fn assert_eq_refuses_every_tag_but_the_expected_one(rt: HostRuntime) {
    same(&rt, Tag::Null.assert_eq(Tag::Null), Ok(Tag::Null));
    let unexpected = ErrorKind::TagUnexpected {
        expected: Some(Tag::OctetString),
        actual: Tag::Sequence,
    };
    same(
        &rt,
        Tag::Sequence.assert_eq(Tag::OctetString),
        Err(unexpected.to_error()),
    );
    same(
        &rt,
        Tag::Sequence.unexpected_error(Some(Tag::OctetString)),
        unexpected,
    );
    let primitive = TagNumber(1).private(false);
    holds(
        &rt,
        TagNumber(1).private(true).assert_eq(primitive).is_err(),
    );
}

#[test]
fn errors_of_a_tag_name_the_tag(rt: HostRuntime) {
    let tag = Tag::Set;
    same(&rt, tag.length_error(), ErrorKind::Length { tag });
    same(
        &rt,
        tag.non_canonical_error(),
        ErrorKind::Noncanonical { tag },
    );
    same(&rt, tag.value_error(), ErrorKind::Value { tag });
}

#[test]
fn tag_numbers_convert_and_compare_as_numbers(rt: HostRuntime) {
    same(&rt, u32::from(TagNumber::from(31)), 31);
    holds(&rt, TagNumber::new(30) < TagNumber::new(31));
}

/// Tags that differ from one another in the variant, the constructed bit or the number.
const DISTINCT: [Tag; 8] = [
    Tag::Boolean,
    Tag::Integer,
    Tag::Application {
        constructed: false,
        number: TagNumber(1),
    },
    Tag::ContextSpecific {
        constructed: false,
        number: TagNumber(1),
    },
    Tag::Private {
        constructed: false,
        number: TagNumber(1),
    },
    Tag::Private {
        constructed: true,
        number: TagNumber(1),
    },
    Tag::Private {
        constructed: false,
        number: TagNumber(257),
    },
    Tag::BmpString,
];

#[test]
fn tags_are_equal_and_hashed_equally_exactly_where_all_is_equal(rt: HostRuntime) {
    for i in 0..DISTINCT.len() {
        for j in 0..DISTINCT.len() {
            same_at(&rt, i, DISTINCT[i] == DISTINCT[j], i == j);
            let is_hashed_equally = recorded(&DISTINCT[i]) == recorded(&DISTINCT[j]);
            same_at(&rt, i, is_hashed_equally, i == j);
        }
    }
}

/// A derived hash feeds the index of the variant in 8 octets, the lowest first, and then the
/// fields.
#[test]
fn a_hasher_gets_the_variant_and_then_the_fields(rt: HostRuntime) {
    same(&rt, recorded(&TagNumber(0x01020304)), 0x01_04030201);
    same(&rt, recorded(&Tag::Boolean), 0x01_0000000000000000);
    same(&rt, recorded(&Tag::Integer), 0x01_0100000000000000);
    let tag = TagNumber(0x0105).application(true);
    same(&rt, recorded(&tag), 0x01_1600000000000000_01_05010000);
    let tag = TagNumber(5).private(false);
    same(&rt, recorded(&tag), 0x01_1800000000000000_00_05000000);
}
