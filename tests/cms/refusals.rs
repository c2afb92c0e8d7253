//! Octets that are no message. The places are those that `openssl asn1parse` lists, and the errors
//! follow from X.690.
use super::encrypted_octets::{AUTH_ENVELOPED, FOUR_RECIPIENTS, KEY_TRANSPORT};
use super::signed_octets::{ATTACHED, BY_KEY, DEGENERATE, TWO};
use crate::checks::{same, same_at};
use crate::fixtures::again::refusal;
use crate::fixtures::errors::{incomplete, indefinite, trailing, unexpected, unknown};
use cms::{AuthEnvelopedData, ContentInfo, EnvelopedData, SignedData};
use der::{Error, ErrorKind, Length, Tag, TagNumber};
use std::alloc::Global;

// A tag of a context with contents that are elements.
fn context(number: u32) -> Tag {
    Tag::ContextSpecific {
        constructed: true,
        number: TagNumber(number),
    }
}

// An identifier with which no alternative begins, at a position.
fn no_alternative(actual: Tag, position: u32) -> Error {
    ErrorKind::TagUnexpected {
        expected: None,
        actual,
    }
    .at(Length::new(position))
}

// The error of the signed message with another octet at a place.
fn with_octet(alloc: Global, place: usize, octet: u8) -> Option<Error> {
    let mut octets = ATTACHED;
    octets[place] = octet;
    refusal::<SignedData>(alloc, &octets[19..])
}

// The set of algorithms begins at octet 26, the content at 56, the certificates at 64 and the
// signers at 384, 232 octets from the end; the message at 19.
#[test]
fn other_octets_are_no_signed_message(rt: HostRuntime) {
    let alloc = rt.alloc();
    for (row, place, octet, expected) in [
        (
            "algorithms in a SEQUENCE",
            26,
            0x30,
            unexpected(Tag::Set, Tag::Sequence),
        ),
        (
            "an INTEGER as algorithm",
            28,
            0x02,
            unexpected(Tag::Sequence, Tag::Integer),
        ),
        (
            "a content that is a BIT STRING",
            56,
            0x03,
            unexpected(Tag::OctetString, Tag::BitString),
        ),
        ("a content in segments", 56, 0x24, unknown(0x24, 38)),
    ] {
        same_at(&rt, row, with_octet(alloc, place, octet), Some(expected));
    }
}

#[test]
fn other_octets_are_no_certificates_and_signers(rt: HostRuntime) {
    let alloc = rt.alloc();
    for (row, place, octet, expected) in [
        (
            "certificates with tag 2",
            64,
            0xA2,
            unexpected(Tag::Set, context(2)),
        ),
        (
            "signers in a SEQUENCE",
            384,
            0x30,
            unexpected(Tag::Set, Tag::Sequence),
        ),
        (
            "a certificate of a kind that there is not",
            68,
            0xA4,
            no_alternative(context(4), 49),
        ),
    ] {
        same_at(&rt, row, with_octet(alloc, place, octet), Some(expected));
    }
}

// The name of the signer begins at octet 393 and the attributes at 425; the signature at 544 is the
// last field.
#[test]
fn other_octets_are_no_signer(rt: HostRuntime) {
    let alloc = rt.alloc();
    same_at(
        &rt,
        "a name with tag 1",
        with_octet(alloc, 393, 0xA1),
        Some(no_alternative(context(1), 374)),
    );
    same_at(
        &rt,
        "attributes with tag 1",
        with_octet(alloc, 425, 0xA1),
        Some(unexpected(Tag::Sequence, context(1))),
    );
    same_at(
        &rt,
        "a signature that is longer than the message",
        with_octet(alloc, 545, 71),
        Some(incomplete(598, 597, 597)),
    );
    same_at(
        &rt,
        "a signature that is shorter than the rest of its signer",
        with_octet(alloc, 545, 69),
        Some(trailing(596, 1)),
    );
}

// `openssl asn1parse` lists the first signer at octet 57 and the second one at 178, which is
// longer: it goes to octet 57, and the first one to 180. A ContentInfo does not look into its
// content.
#[test]
fn signers_that_descend_are_refused(rt: HostRuntime) {
    let mut octets = TWO;
    octets[57..180].copy_from_slice(&TWO[178..]);
    octets[180..].copy_from_slice(&TWO[57..178]);
    same(&rt, refusal::<ContentInfo>(rt.alloc(), &octets), None);
    same(
        &rt,
        refusal::<SignedData>(rt.alloc(), &octets[19..]),
        Some(ErrorKind::SetOrdering.at(Length::new(161))),
    );
}

// The attributes begin at octet 98 with contentType, of 26 octets, and signingTime, of 30.
#[test]
fn attributes_that_descend_are_refused(rt: HostRuntime) {
    let mut octets = BY_KEY;
    octets[100..130].copy_from_slice(&BY_KEY[126..156]);
    octets[130..156].copy_from_slice(&BY_KEY[100..126]);
    same(
        &rt,
        refusal::<SignedData>(rt.alloc(), &octets[19..]),
        Some(ErrorKind::SetOrdering.at(Length::new(111))),
    );
}

// The recipients begin at octet 26, those with a shared key at 373 and with a password at 425.
#[test]
fn recipients_that_descend_are_refused(rt: HostRuntime) {
    let mut octets = FOUR_RECIPIENTS;
    octets[373..487].copy_from_slice(&FOUR_RECIPIENTS[425..539]);
    octets[487..539].copy_from_slice(&FOUR_RECIPIENTS[373..425]);
    same(
        &rt,
        refusal::<EnvelopedData>(rt.alloc(), &octets[19..]),
        Some(ErrorKind::SetOrdering.at(Length::new(468))),
    );
}

// The recipient begins at octet 27 and the encrypted content at 198.
#[test]
fn other_octets_are_no_enveloped_message(rt: HostRuntime) {
    let alloc = rt.alloc();
    let mut octets = KEY_TRANSPORT;
    octets[27] = 0xA5;
    same_at(
        &rt,
        "a recipient of a kind that there is not",
        refusal::<EnvelopedData>(alloc, &octets[18..]),
        Some(no_alternative(context(5), 9)),
    );
    octets = KEY_TRANSPORT;
    octets[198] = 0x31;
    same_at(
        &rt,
        "a content in a SET",
        refusal::<EnvelopedData>(alloc, &octets[18..]),
        Some(unexpected(Tag::Sequence, Tag::Set)),
    );
}

// The code, an OCTET STRING, begins at octet 132, and is the last field.
#[test]
fn an_authenticated_encryption_without_code_is_refused(rt: HostRuntime) {
    let mut octets = AUTH_ENVELOPED;
    octets[132] = 0xA2;
    same(
        &rt,
        refusal::<AuthEnvelopedData>(rt.alloc(), &octets[19..]),
        Some(unexpected(Tag::OctetString, context(2))),
    );
}

// The certificates begin at octet 41 and the first one at 44. Read as a list, its serial number is
// a version, and its validity at octet 73 is a time.
#[test]
fn a_certificate_is_no_list(rt: HostRuntime) {
    let mut octets = DEGENERATE;
    octets[41] = 0xA1;
    same(
        &rt,
        refusal::<SignedData>(rt.alloc(), &octets[19..]),
        Some(no_alternative(Tag::Sequence, 54)),
    );
}

// The content begins at octet 15 with the tag 0. What a ContentInfo has behind it is refused.
#[test]
fn a_message_has_two_fields(rt: HostRuntime) {
    let alloc = rt.alloc();
    let mut octets = ATTACHED;
    octets[15] = 0xA1;
    same_at(
        &rt,
        "a content with tag 1",
        refusal::<ContentInfo>(alloc, &octets),
        Some(unexpected(context(0), context(1))),
    );
    same_at(
        &rt,
        "no content",
        refusal::<ContentInfo>(alloc, b"\x30\x03\x06\x01\x2A"),
        Some(incomplete(6, 5, 5)),
    );
    same_at(
        &rt,
        "two contents",
        refusal::<ContentInfo>(
            alloc,
            b"\x30\x0B\x06\x01\x2A\xA0\x02\x05\x00\xA0\x02\x05\x00",
        ),
        Some(trailing(9, 4)),
    );
    same_at(
        &rt,
        "an indefinite length, as of BER",
        refusal::<ContentInfo>(alloc, b"\x30\x80\x06\x01\x2A\xA0\x02\x05\x00\x00\x00"),
        Some(indefinite(2)),
    );
}
