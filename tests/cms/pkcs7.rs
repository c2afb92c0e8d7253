//! Signed messages of PKCS #7, whose content may be an element of any tag.
use super::signed_octets::{ATTACHED, DEGENERATE, TWO};
use super::streamed_octets::STREAMED;
use crate::checks::{holds, same, same_octets};
use crate::fixtures::again::{is_same, refusal};
use crate::fixtures::errors::unexpected;
use cms::asn1::values::id_data;
use cms::{ContentInfo, Pkcs7SignedData, SignedData};
use der::{DecodeBytes, EncodingRules, Error, ErrorKind, Length, Tag};
use std::alloc::Global;

// Where the SignedData begins in ATTACHED, and its content, as `openssl asn1parse` lists them.
const DATA: usize = 19;
const CONTENT: usize = 56;

#[test]
fn every_signed_message_is_one_of_pkcs7(rt: HostRuntime) {
    let alloc = rt.alloc();
    holds(&rt, is_same::<Pkcs7SignedData>(alloc, &ATTACHED[DATA..]));
    holds(&rt, is_same::<Pkcs7SignedData>(alloc, &TWO[DATA..]));
    holds(&rt, is_same::<Pkcs7SignedData>(alloc, &DEGENERATE[DATA..]));
}

// The message with a SEQUENCE in place of the OCTET STRING.
fn with_sequence() -> [u8; 616] {
    let mut octets = ATTACHED;
    octets[CONTENT] = 0x30;
    octets
}

#[test]
fn a_content_may_have_another_tag(rt: HostRuntime) {
    let alloc = rt.alloc();
    let octets = with_sequence();
    holds(&rt, is_same::<Pkcs7SignedData>(alloc, &octets[DATA..]));
    let refused = refusal::<SignedData>(alloc, &octets[DATA..]);
    holds(&rt, refused == Some(unexpected(Tag::OctetString, Tag::Sequence)));
    let Ok(message) = ContentInfo::from_der(alloc, &octets) else {
        holds(&rt, false);
        return;
    };
    let Ok(data) = message.content.0.decode_as::<Pkcs7SignedData>(alloc, EncodingRules::Der) else {
        holds(&rt, false);
        return;
    };
    holds(&rt, data.content_info.content_type == id_data());
    match data.content_info.content.0 {
        Some(content) => {
            same(&rt, content.0.tag, Tag::Sequence);
            same_octets(&rt, content.0.contents, b"hello\n");
        }
        None => holds(&rt, false),
    }
    same(&rt, data.signer_infos.iter(alloc).count(), 1);
}

// The error of a content in segments, at the last octet of its header. `openssl asn1parse` lists the
// content at octet 50 of the message, with a header of two octets, and the contents of the SignedData
// from octet 17.
fn in_segments() -> Error {
    let kind = ErrorKind::Noncanonical { tag: Tag::OctetString };
    kind.at(Length::new(51 - 17))
}

#[test]
fn a_content_in_segments_is_refused_here_and_joined_by_signed_data(rt: HostRuntime) {
    let alloc = rt.alloc();
    let Ok(message) = ContentInfo::from_ber(alloc, &STREAMED) else {
        holds(&rt, false);
        return;
    };
    let refused = message.content.0.decode_as::<Pkcs7SignedData>(alloc, EncodingRules::Ber).err();
    holds(&rt, refused == Some(in_segments()));
    match message.content.0.decode_as::<SignedData>(alloc, EncodingRules::Ber) {
        Ok(data) => same(&rt, data.signer_infos.iter(alloc).count(), 1),
        Err(_) => holds(&rt, false),
    }
}
