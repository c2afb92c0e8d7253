//! Errors and their printed texts.
use crate::checks::{holds, same, same_at};
use der::{Error, ErrorKind, Length, Tag};
use std::alloc::Global;
use std::process::Abort;
use std::str;
use std::test::Fail;

/// The kinds whose text contains no length and no tag.
const PLAIN: [(ErrorKind, &str); 14] = [
    (ErrorKind::DateTime, "date/time error"),
    (ErrorKind::EncodingRules, "invalid encoding rules"),
    (ErrorKind::Failed, "operation failed"),
    (
        ErrorKind::IndefiniteLength,
        "indefinite length disallowed/malformed",
    ),
    (
        ErrorKind::NestingDepth,
        "too many nested productions encountered",
    ),
    (ErrorKind::OidMalformed, "malformed OID"),
    (ErrorKind::SetDuplicate, "SET OF contains duplicate"),
    (ErrorKind::SetOrdering, "SET OF ordering error"),
    (ErrorKind::Overflow, "integer overflow"),
    (ErrorKind::Overlength, "ASN.1 DER message is too long"),
    (
        ErrorKind::Reader,
        "reader does not support the requested operation",
    ),
    (ErrorKind::TagModeUnknown, "unknown tag mode"),
    (ErrorKind::TagNumberInvalid, "invalid tag number"),
    (ErrorKind::OutOfMemory, "out of memory"),
];

/// Kinds that differ from one another in the variant or in a field.
const DISTINCT: [ErrorKind; 14] = [
    ErrorKind::Failed,
    ErrorKind::OutOfMemory,
    ErrorKind::Incomplete {
        expected_len: Length::ONE,
        actual_len: Length::ZERO,
    },
    ErrorKind::Incomplete {
        expected_len: Length::MAX,
        actual_len: Length::ZERO,
    },
    ErrorKind::Incomplete {
        expected_len: Length::MAX,
        actual_len: Length::ONE,
    },
    ErrorKind::TrailingData {
        decoded: Length::ONE,
        remaining: Length::ZERO,
    },
    ErrorKind::TrailingData {
        decoded: Length::ONE,
        remaining: Length::MAX,
    },
    ErrorKind::Length { tag: Tag::Null },
    ErrorKind::Value { tag: Tag::Null },
    ErrorKind::Value { tag: Tag::Set },
    ErrorKind::TagUnknown { byte: 0x20 },
    ErrorKind::TagUnknown { byte: 0x60 },
    ErrorKind::TagUnexpected {
        expected: None,
        actual: Tag::Null,
    },
    ErrorKind::TagUnexpected {
        expected: Some(Tag::Set),
        actual: Tag::Null,
    },
];

fn text_of_error(alloc: Global, error: Error) -> Result<String, Fail> {
    Ok(error.to_string(alloc)?)
}

fn text_of_kind(alloc: Global, kind: ErrorKind) -> Result<String, Fail> {
    Ok(kind.to_string(alloc)?)
}

fn plain(rt: &impl Abort, alloc: Global, kind: ErrorKind, text: &str) -> Result<(), Fail> {
    same(rt, text_of_kind(alloc, kind)?.as_str(), text);
    same(rt, text_of_error(alloc, kind.to_error())?.as_str(), text);
    let placed = format!(in alloc; "{text} at DER byte 7")?;
    let error = text_of_error(alloc, kind.at(Length::new(7)))?;
    same(rt, error.as_str(), placed.as_str());
    Ok(())
}

#[test]
fn plain_kinds_are_printed_with_and_without_a_position(rt: HostRuntime) -> Result<(), Fail> {
    for (kind, text) in PLAIN {
        plain(&rt, rt.alloc(), kind, text)?;
    }
    Ok(())
}

fn cut() -> Error {
    Error::incomplete(Length::ZERO)
}

#[test]
fn the_lengths_of_an_incomplete_kind_are_printed(rt: HostRuntime) -> Result<(), Fail> {
    let text = text_of_kind(rt.alloc(), cut().kind())?;
    let expected = "ASN.1 DER message is incomplete: expected 1, actual 0";
    same(&rt, text.as_str(), expected);
    Ok(())
}

#[test]
fn errors_are_printed_with_their_lengths_tags_and_positions(rt: HostRuntime) -> Result<(), Fail> {
    let tag = Tag::OctetString;
    let trailing = ErrorKind::TrailingData {
        decoded: Length::new(3),
        remaining: Length::ONE,
    };
    let rows = [
        (
            cut(),
            "ASN.1 DER message is incomplete: expected 1, actual 0 at DER byte 0",
        ),
        (
            Error::incomplete(Length::MAX),
            "integer overflow at DER byte 4294967295",
        ),
        (
            trailing.at(Length::new(3)),
            "trailing data at end of DER message: decoded 3 bytes, 1 bytes remaining at DER byte 3",
        ),
        (
            tag.length_error().at(Length::new(3)),
            "incorrect length for OCTET STRING at DER byte 3",
        ),
        (
            tag.non_canonical_error().at(Length::ONE),
            "ASN.1 OCTET STRING not canonically encoded as DER at DER byte 1",
        ),
        (
            tag.value_error().to_error(),
            "malformed ASN.1 DER value for OCTET STRING",
        ),
        (
            Tag::Sequence.unexpected_error(Some(tag)).to_error(),
            "unexpected ASN.1 DER tag: expected OCTET STRING, got SEQUENCE",
        ),
        (
            Tag::Sequence.unexpected_error(None).to_error(),
            "unexpected ASN.1 DER tag: got SEQUENCE",
        ),
        (
            ErrorKind::TagUnknown { byte: 0x3F }.at(Length::ONE),
            "unknown/unsupported ASN.1 DER tag: 0x3f at DER byte 1",
        ),
        (
            ErrorKind::TagUnknown { byte: 0 }.to_error(),
            "unknown/unsupported ASN.1 DER tag: 0x00",
        ),
    ];
    for (error, text) in rows {
        same(&rt, text_of_error(rt.alloc(), error)?.as_str(), text);
    }
    Ok(())
}

#[test]
fn an_error_returns_its_kind_and_position(rt: HostRuntime) {
    let error = Error::new(ErrorKind::Reader, Length::new(9));
    same(&rt, error.kind(), ErrorKind::Reader);
    same(&rt, error.position(), Some(Length::new(9)));
    same(&rt, error, ErrorKind::Reader.at(Length::new(9)));
    let bare = Error::from(ErrorKind::Reader);
    same(&rt, bare, ErrorKind::Reader.to_error());
    same(&rt, bare.position(), None);
}

#[test]
fn an_incomplete_input_wants_one_octet_more_or_overflows(rt: HostRuntime) {
    let kind = ErrorKind::Incomplete {
        expected_len: Length::ONE,
        actual_len: Length::ZERO,
    };
    same(&rt, cut(), kind.at(Length::ZERO));
    let most = Error::incomplete(Length::MAX);
    same(&rt, most, ErrorKind::Overflow.at(Length::MAX));
}

#[test]
fn errors_of_std_become_overflow_and_utf8(rt: HostRuntime) {
    holds(&rt, u8::try_from(256u32).is_err());
    if let Err(error) = u8::try_from(256u32) {
        same(&rt, Error::from(error), ErrorKind::Overflow.to_error());
    }
    holds(&rt, str::from_utf8(&[0xFF]).is_err());
    if let Err(error) = str::from_utf8(&[0xFF]) {
        same(&rt, Error::from(error), ErrorKind::Utf8(error).to_error());
    }
}

#[test]
fn kinds_are_equal_exactly_where_all_is_equal(rt: HostRuntime) {
    for i in 0..DISTINCT.len() {
        for j in 0..DISTINCT.len() {
            same_at(&rt, i, DISTINCT[i] == DISTINCT[j], i == j);
            let (first, second) = (DISTINCT[i].to_error(), DISTINCT[j].to_error());
            same_at(&rt, i, first == second, i == j);
        }
    }
}

#[test]
fn errors_are_equal_exactly_where_kind_and_position_are(rt: HostRuntime) {
    let distinct = [
        ErrorKind::Failed.to_error(),
        ErrorKind::Failed.at(Length::ZERO),
        ErrorKind::Failed.at(Length::new(7)),
        ErrorKind::Failed.at(Length::new_indefinite(7)),
        ErrorKind::Reader.at(Length::new(7)),
    ];
    for i in 0..distinct.len() {
        for j in 0..distinct.len() {
            same_at(&rt, i, distinct[i] == distinct[j], i == j);
        }
    }
}

#[test]
fn texts_cut_at_other_octets_are_other_errors(rt: HostRuntime) {
    let (Err(first), Err(second)) = (str::from_utf8(&[0xFF]), str::from_utf8(&[0x41, 0xFF])) else {
        holds(&rt, false);
        return;
    };
    holds(&rt, ErrorKind::Utf8(first) == ErrorKind::Utf8(first));
    holds(&rt, ErrorKind::Utf8(first) != ErrorKind::Utf8(second));
}
