//! How a signed message is read, as docs/CALLING.md shows it.
use super::signed_octets::{ATTACHED, TWO};
use super::streamed_octets::STREAMED;
use crate::checks::{holds, same, same_octets};
use cms::asn1::values::id_message_digest;
use cms::{MessageDigest, Segmented, SignedMessage, SignerInfo};
use der::{DecodeBytes, Error, ErrorKind, Length};
use std::alloc::Global;

/// The content of a signed message, borrowed from its octets; `None` if the content is elsewhere.
fn content_of<'a>(alloc: Global, octets: &'a [u8]) -> Result<Option<Segmented<'a>>, Error> {
    let message = SignedMessage::from_ber(alloc, octets)?;
    let content = message.content.0.encap_content_info.e_content.0;
    Ok(content.map(|inside| inside.0))
}

/// The sum of the octets of a content, read piece by piece as a digest reads them.
fn sum_of(content: &Segmented<'_>) -> u32 {
    let mut sum = 0u32;
    let mut segments = content.segments();
    while let Some(piece) = segments.next() {
        for octet in piece {
            sum = sum.wrapping_add(u32::from(*octet));
        }
    }
    sum
}

/// The digest of the content, as the signed attribute messageDigest has it. `None` if there is no
/// such attribute, or if it cannot be decoded.
fn digest_of<'a>(alloc: Global, signer: &SignerInfo<'a>) -> Option<MessageDigest<'a>> {
    let attributes = signer.signed_attrs.0?;
    for attribute in attributes.0.iter(alloc) {
        if attribute.oid == id_message_digest() {
            return MessageDigest::from_der(alloc, attribute.values.octets()).ok();
        }
    }
    None
}

/// The octets that this signature covers. `content` is the content of the message.
fn covered_by<'b>(
    signer: &SignerInfo<'_>,
    content: &'b [u8],
    buffer: &'b mut [u8],
) -> Result<&'b [u8], Error> {
    let attributes = signer.signed_attributes_der(buffer)?;
    Ok(attributes.unwrap_or(content))
}

#[test]
fn a_content_is_borrowed_from_the_message(rt: HostRuntime) {
    for message in [&ATTACHED[..], &STREAMED] {
        let Ok(Some(content)) = content_of(rt.alloc(), message) else {
            holds(&rt, false);
            return;
        };
        same(&rt, content.joined_len(), 6);
        // 104 + 101 + 108 + 108 + 111 + 10
        same(&rt, sum_of(&content), 542);
    }
}

// `openssl asn1parse` lists the signed attributes at octet 425 with a header of two octets; their
// contents are those of the SET OF that the signature covers.
#[test]
fn a_signature_covers_the_attributes_as_a_set(rt: HostRuntime) {
    let alloc = rt.alloc();
    let Ok(message) = SignedMessage::from_der(alloc, &ATTACHED) else {
        holds(&rt, false);
        return;
    };
    for signer in message.content.0.signer_infos.iter(alloc) {
        let mut buffer = [0; 107];
        match covered_by(&signer, b"hello\n", &mut buffer) {
            Ok(octets) => {
                same_octets(&rt, &octets[..2], &[0x31, 0x69]);
                same_octets(&rt, &octets[2..], &ATTACHED[427..532]);
            }
            Err(_) => holds(&rt, false),
        }
        match digest_of(alloc, &signer) {
            Some(digest) => same_octets(&rt, digest.octets(), &ATTACHED[500..532]),
            None => holds(&rt, false),
        }
    }
}

// The message was made with -noattr.
#[test]
fn a_signature_without_attributes_covers_the_content(rt: HostRuntime) {
    let alloc = rt.alloc();
    let Ok(message) = SignedMessage::from_der(alloc, &TWO) else {
        holds(&rt, false);
        return;
    };
    for signer in message.content.0.signer_infos.iter(alloc) {
        match covered_by(&signer, b"hello\n", &mut []) {
            Ok(octets) => same_octets(&rt, octets, b"hello\n"),
            Err(_) => holds(&rt, false),
        }
    }
}

#[test]
fn a_buffer_that_is_too_short_is_refused(rt: HostRuntime) {
    let alloc = rt.alloc();
    let Ok(message) = SignedMessage::from_der(alloc, &ATTACHED) else {
        holds(&rt, false);
        return;
    };
    for signer in message.content.0.signer_infos.iter(alloc) {
        let mut buffer = [0; 106];
        let expected = ErrorKind::Overlength.at(Length::new(107));
        match signer.signed_attributes_der(&mut buffer) {
            Err(error) => holds(&rt, error == expected),
            Ok(_) => holds(&rt, false),
        }
    }
}
