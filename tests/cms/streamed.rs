//! Signed messages under BER, as `openssl cms -stream` writes them.
use super::streamed_octets::{STREAMED, WRITTEN};
use crate::checks::{holds, holds_at, same, same_octets};
use crate::fixtures::errors::{incomplete, indefinite};
use cms::SignedMessage;
use der::{DecodeBytes, Encode, Error};
use std::alloc::Global;

// The place of the content in the message: the contents of the OCTET STRING at octet 50, as
// `openssl asn1parse` lists it, up to its end-of-contents octets.
const CONTENT: usize = 52;

/// Whether the octets are read under BER, and written as `expected`.
fn is_written_as(alloc: Global, octets: &[u8], expected: &[u8]) -> bool {
    let Ok(message) = SignedMessage::from_ber(alloc, octets) else {
        return false;
    };
    match message.to_der(alloc) {
        Ok(written) => written.as_slice() == expected,
        Err(_) => false,
    }
}

fn refusal(alloc: Global, octets: &[u8]) -> Option<Error> {
    SignedMessage::from_ber(alloc, octets).err()
}

// The message with other octets in place of the only segment of its content.
fn with_content(alloc: Global, content: &[u8]) -> Result<Vec<u8>, std::alloc::AllocError> {
    let mut message = Vec::new(alloc);
    message.extend_from_slice(&STREAMED[..CONTENT])?;
    message.extend_from_slice(content)?;
    message.extend_from_slice(&STREAMED[CONTENT + 8..])?;
    Ok(message)
}

#[test]
fn a_streamed_message_is_written_as_openssl_writes_it(rt: HostRuntime) {
    holds(&rt, is_written_as(rt.alloc(), &STREAMED, &WRITTEN));
    holds(&rt, is_written_as(rt.alloc(), &WRITTEN, &WRITTEN));
}

#[test]
fn a_content_in_segments_is_read_piece_by_piece(rt: HostRuntime) {
    let Ok(message) = SignedMessage::from_ber(rt.alloc(), &STREAMED) else {
        holds(&rt, false);
        return;
    };
    let Some(content) = message.content.0.encap_content_info.e_content.0 else {
        holds(&rt, false);
        return;
    };
    holds(&rt, !content.0.is_primitive());
    same(&rt, content.0.joined_len(), 6);
    let mut segments = content.0.segments();
    match segments.next() {
        Some(piece) => same_octets(&rt, piece, b"hello\n"),
        None => holds(&rt, false),
    }
    holds(&rt, segments.next().is_none());
    let mut buffer = [0; 6];
    holds(&rt, content.0.copy_to(&mut buffer));
    same_octets(&rt, &buffer, b"hello\n");
}

// The same content in two segments, in a segment inside a segment, and with an empty segment.
#[test]
fn other_segments_are_the_same_content(rt: HostRuntime) {
    let alloc = rt.alloc();
    let contents: [&[u8]; 3] = [
        &[0x04, 0x03, 0x68, 0x65, 0x6C, 0x04, 0x03, 0x6C, 0x6F, 0x0A],
        &[0x24, 0x05, 0x04, 0x03, 0x68, 0x65, 0x6C, 0x04, 0x03, 0x6C, 0x6F, 0x0A],
        &[0x04, 0x00, 0x04, 0x06, 0x68, 0x65, 0x6C, 0x6C, 0x6F, 0x0A],
    ];
    for content in contents {
        match with_content(alloc, content) {
            Ok(message) => holds(&rt, is_written_as(alloc, &message, &WRITTEN)),
            Err(_) => holds(&rt, false),
        }
    }
}

#[test]
fn a_streamed_message_is_refused_under_der(rt: HostRuntime) {
    let refused = SignedMessage::from_der(rt.alloc(), &STREAMED).err();
    holds(&rt, refused == Some(indefinite(2)));
}

// The outermost length is indefinite, so a message that is cut lacks the octets that end it.
#[test]
fn each_streamed_message_that_is_cut_is_refused(rt: HostRuntime) {
    let alloc = rt.alloc();
    for end in 0..STREAMED.len() {
        holds_at(&rt, end, refusal(alloc, &STREAMED[..end]).is_some());
    }
    let last = STREAMED.len() - 1;
    let expected = incomplete(196, 195, 195);
    holds(&rt, refusal(alloc, &STREAMED[..last]) == Some(expected));
}

// A changed octet is refused, or what is read is written as DER that is read as the same.
#[test]
fn each_changed_octet_is_refused_or_kept(rt: HostRuntime) {
    let alloc = rt.alloc();
    let mut octets = STREAMED;
    for place in 0..octets.len() {
        for change in [0x01, 0x20, 0xFF] {
            octets[place] ^= change;
            if let Ok(message) = SignedMessage::from_ber(alloc, &octets) {
                match message.to_der(alloc) {
                    Ok(written) => holds_at(&rt, place, is_written_as(alloc, &written, &written)),
                    Err(_) => holds_at(&rt, place, false),
                }
            }
            octets[place] ^= change;
        }
    }
}
