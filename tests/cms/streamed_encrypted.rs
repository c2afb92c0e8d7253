//! Encrypted messages under BER, as `openssl cms -stream` writes them.
use crate::checks::{holds, holds_at, same, same_octets};
use cms::asn1::values::{id_data, id_enveloped_data};
use cms::{ContentInfo, EncryptedOctets, EnvelopedData, Segmented};
use der::{DecodeBytes, Encode, EncodingRules, Error, ErrorKind, Length, Tag, TagNumber};
use std::alloc::Global;

/// With indefinite lengths: `openssl cms -encrypt -stream -in msg -binary -outform DER -aes128
/// -secretkey 000102030405060708090a0b0c0d0e0f -secretkeyid 01`; the content is `hello` and a line
/// feed.
static STREAMED: [u8; 145] = [
    0x30, 0x80, 0x06, 0x09, 0x2A, 0x86, 0x48, 0x86, 0xF7, 0x0D, 0x01, 0x07, 0x03, 0xA0, 0x80, 0x30,
    0x80, 0x02, 0x01, 0x02, 0x31, 0x31, 0xA2, 0x2F, 0x02, 0x01, 0x04, 0x30, 0x03, 0x04, 0x01, 0x01,
    0x30, 0x0B, 0x06, 0x09, 0x60, 0x86, 0x48, 0x01, 0x65, 0x03, 0x04, 0x01, 0x05, 0x04, 0x18, 0x39,
    0x73, 0xC6, 0x28, 0x77, 0x7C, 0x03, 0x9C, 0xE1, 0x79, 0xC8, 0x7F, 0xDC, 0x3E, 0x3F, 0x3D, 0xD4,
    0x35, 0xEA, 0x52, 0x7A, 0xF5, 0x00, 0xA6, 0x30, 0x80, 0x06, 0x09, 0x2A, 0x86, 0x48, 0x86, 0xF7,
    0x0D, 0x01, 0x07, 0x01, 0x30, 0x1D, 0x06, 0x09, 0x60, 0x86, 0x48, 0x01, 0x65, 0x03, 0x04, 0x01,
    0x02, 0x04, 0x10, 0x31, 0xEB, 0xAD, 0xBD, 0x19, 0xF5, 0x68, 0x5A, 0xAC, 0x38, 0xB6, 0x31, 0xFD,
    0xD6, 0x6E, 0x4A, 0xA0, 0x80, 0x04, 0x10, 0x67, 0x12, 0x3A, 0x65, 0x3F, 0xED, 0x2F, 0xD5, 0xBB,
    0x58, 0xD0, 0xA3, 0x4B, 0xCC, 0xDC, 0xEB, 0x00, 0x00, 0x00, 0x00, 0x00, 0x00, 0x00, 0x00, 0x00,
    0x00,
];

/// The same message, as `openssl cms -cmsout -outform DER` writes it.
static WRITTEN: [u8; 134] = [
    0x30, 0x81, 0x83, 0x06, 0x09, 0x2A, 0x86, 0x48, 0x86, 0xF7, 0x0D, 0x01, 0x07, 0x03, 0xA0, 0x76,
    0x30, 0x74, 0x02, 0x01, 0x02, 0x31, 0x31, 0xA2, 0x2F, 0x02, 0x01, 0x04, 0x30, 0x03, 0x04, 0x01,
    0x01, 0x30, 0x0B, 0x06, 0x09, 0x60, 0x86, 0x48, 0x01, 0x65, 0x03, 0x04, 0x01, 0x05, 0x04, 0x18,
    0x39, 0x73, 0xC6, 0x28, 0x77, 0x7C, 0x03, 0x9C, 0xE1, 0x79, 0xC8, 0x7F, 0xDC, 0x3E, 0x3F, 0x3D,
    0xD4, 0x35, 0xEA, 0x52, 0x7A, 0xF5, 0x00, 0xA6, 0x30, 0x3C, 0x06, 0x09, 0x2A, 0x86, 0x48, 0x86,
    0xF7, 0x0D, 0x01, 0x07, 0x01, 0x30, 0x1D, 0x06, 0x09, 0x60, 0x86, 0x48, 0x01, 0x65, 0x03, 0x04,
    0x01, 0x02, 0x04, 0x10, 0x31, 0xEB, 0xAD, 0xBD, 0x19, 0xF5, 0x68, 0x5A, 0xAC, 0x38, 0xB6, 0x31,
    0xFD, 0xD6, 0x6E, 0x4A, 0x80, 0x10, 0x67, 0x12, 0x3A, 0x65, 0x3F, 0xED, 0x2F, 0xD5, 0xBB, 0x58,
    0xD0, 0xA3, 0x4B, 0xCC, 0xDC, 0xEB,
];

// Where the EnvelopedData begins in WRITTEN, as `openssl asn1parse` lists it.
const DATA: usize = 16;

// Where the encrypted content begins in STREAMED: its tag, length, one segment, end-of-contents
// octets.
const CONTENT: usize = 115;

/// The EnvelopedData inside a message.
fn enveloped_in<'a>(
    alloc: Global,
    octets: &'a [u8],
    rules: EncodingRules,
) -> Result<EnvelopedData<'a>, Error> {
    let message = match rules {
        EncodingRules::Ber => ContentInfo::from_ber(alloc, octets)?,
        EncodingRules::Der => ContentInfo::from_der(alloc, octets)?,
    };
    message.content.0.decode_as(alloc, rules)
}

fn is_written_as(alloc: Global, octets: &[u8], expected: &[u8]) -> bool {
    let Ok(data) = enveloped_in(alloc, octets, EncodingRules::Ber) else {
        return false;
    };
    match data.to_der(alloc) {
        Ok(written) => written.as_slice() == expected,
        Err(_) => false,
    }
}

fn string<'a>(alloc: Global, octets: &'a [u8]) -> Result<Segmented<'a>, Error> {
    EncryptedOctets::from_ber(alloc, octets).map(|found| found.0)
}

#[test]
fn a_streamed_message_is_written_as_openssl_writes_it(rt: HostRuntime) {
    holds(&rt, is_written_as(rt.alloc(), &STREAMED, &WRITTEN[DATA..]));
    holds(&rt, is_written_as(rt.alloc(), &WRITTEN, &WRITTEN[DATA..]));
}

#[test]
fn an_encrypted_content_in_segments_is_read_piece_by_piece(rt: HostRuntime) {
    let alloc = rt.alloc();
    let Ok(message) = ContentInfo::from_ber(alloc, &STREAMED) else {
        holds(&rt, false);
        return;
    };
    holds(&rt, message.content_type == id_enveloped_data());
    let Ok(data) = enveloped_in(alloc, &STREAMED, EncodingRules::Ber) else {
        holds(&rt, false);
        return;
    };
    holds(&rt, data.encrypted_content_info.content_type == id_data());
    let Some(content) = data.encrypted_content_info.encrypted_content.0 else {
        holds(&rt, false);
        return;
    };
    holds(&rt, !content.0.is_primitive());
    same(&rt, content.0.joined_len(), 16);
    let mut segments = content.0.segments();
    match segments.next() {
        Some(piece) => same_octets(&rt, piece, &STREAMED[CONTENT + 4..CONTENT + 20]),
        None => holds(&rt, false),
    }
    holds(&rt, segments.next().is_none());
}

// The string AA BB CC with the tag [0] IMPLICIT, in the forms that BER allows.
#[test]
fn each_form_is_the_same_string(rt: HostRuntime) {
    let alloc = rt.alloc();
    let forms: [&[u8]; 4] = [
        &[0x80, 3, 0xAA, 0xBB, 0xCC],
        &[0xA0, 7, 0x04, 2, 0xAA, 0xBB, 0x04, 1, 0xCC],
        &[0xA0, 0x80, 0x04, 2, 0xAA, 0xBB, 0x04, 1, 0xCC, 0, 0],
        &[0xA0, 0x80, 0x24, 0x80, 0x04, 1, 0xAA, 0, 0, 0x24, 3, 0x04, 1, 0xBB, 0x04, 1, 0xCC, 0, 0],
    ];
    for (row, form) in forms.into_iter().enumerate() {
        let Ok(found) = string(alloc, form) else {
            holds_at(&rt, row, false);
            return;
        };
        let mut buffer = [0; 3];
        holds_at(&rt, row, found.copy_to(&mut buffer));
        same_octets(&rt, &buffer, &[0xAA, 0xBB, 0xCC]);
        match EncryptedOctets::from_ber(alloc, form) {
            Ok(value) => match value.to_der(alloc) {
                Ok(written) => same_octets(&rt, written.as_slice(), &[0x80, 3, 0xAA, 0xBB, 0xCC]),
                Err(_) => holds_at(&rt, row, false),
            },
            Err(_) => holds_at(&rt, row, false),
        }
    }
}

// The tag [0] with the constructed bit.
fn constructed_tag() -> Tag {
    Tag::ContextSpecific {
        constructed: true,
        number: TagNumber(0),
    }
}

#[test]
fn der_refuses_the_constructed_tag(rt: HostRuntime) {
    let octets: [u8; 5] = [0xA0, 3, 0x04, 1, 0xAA];
    let expected = ErrorKind::Noncanonical { tag: constructed_tag() }.at(Length::new(1));
    let refused = EncryptedOctets::from_der(rt.alloc(), &octets).err();
    holds(&rt, refused == Some(expected));
}

#[test]
fn other_tags_are_refused(rt: HostRuntime) {
    let alloc = rt.alloc();
    let actual = Tag::OctetString;
    let expected = ErrorKind::TagUnexpected { expected: None, actual }.at(Length::new(0));
    holds(&rt, string(alloc, &[0x04, 1, 0xAA]).err() == Some(expected));
    // a segment that is no OCTET STRING; the reader is after its header
    let expected = ErrorKind::TagUnexpected { expected: Some(actual), actual: Tag::Null }.to_error();
    holds(&rt, string(alloc, &[0xA0, 2, 0x05, 0]).err() == Some(expected));
}

#[test]
fn each_message_that_is_cut_is_refused(rt: HostRuntime) {
    let alloc = rt.alloc();
    for end in 0..STREAMED.len() {
        let refused = enveloped_in(alloc, &STREAMED[..end], EncodingRules::Ber).is_err();
        holds_at(&rt, end, refused);
    }
}

// A changed octet is refused, or what is read is written as DER that is read as the same.
#[test]
fn each_changed_octet_is_refused_or_kept(rt: HostRuntime) {
    let alloc = rt.alloc();
    let mut octets = STREAMED;
    for place in 0..octets.len() {
        for change in [0x01, 0x20, 0xFF] {
            octets[place] ^= change;
            if let Ok(data) = enveloped_in(alloc, &octets, EncodingRules::Ber) {
                match data.to_der(alloc) {
                    Ok(written) => {
                        let again = EnvelopedData::from_der(alloc, &written);
                        holds_at(&rt, place, again.is_ok());
                    }
                    Err(_) => holds_at(&rt, place, false),
                }
            }
            octets[place] ^= change;
        }
    }
}
