//! Messages that are encrypted without recipients, compressed, or have a digest.
use super::encrypted_octets::{COMPRESSED, DIGESTED, ENCRYPTED};
use crate::checks::{holds, same, same_at, same_octets};
use crate::fixtures::again::{is_same, refusal};
use crate::fixtures::errors::{trailing, unexpected};
use cms::asn1::values::{
    id_alg_zlib_compress, id_ct_compressed_data, id_data, id_digested_data, id_encrypted_data,
    id_sha256,
};
use cms::{CompressedData, ContentInfo, DigestedData, EncryptedData};
use der::{DecodeBytes, ErrorKind, Length, Tag, TagNumber};
use der_asn1::ObjectIdentifierRef;
use std::alloc::Global;

// Whether the octets are a message of this type, and are written as they were.
fn has_type(alloc: Global, octets: &[u8], kind: ObjectIdentifierRef<'_>) -> bool {
    match ContentInfo::from_der(alloc, octets) {
        Ok(message) => message.content_type == kind && is_same::<ContentInfo>(alloc, octets),
        Err(_) => false,
    }
}

#[test]
fn messages_without_recipients_are_written_as_they_were(rt: HostRuntime) {
    let alloc = rt.alloc();
    holds(&rt, has_type(alloc, &ENCRYPTED, id_encrypted_data()));
    holds(&rt, has_type(alloc, &DIGESTED, id_digested_data()));
    holds(&rt, has_type(alloc, &COMPRESSED, id_ct_compressed_data()));
    holds(&rt, is_same::<EncryptedData>(alloc, &ENCRYPTED[15..]));
    holds(&rt, is_same::<DigestedData>(alloc, &DIGESTED[15..]));
    holds(&rt, is_same::<CompressedData>(alloc, &COMPRESSED[17..]));
}

// `openssl asn1parse` lists the algorithm at octet 33, and the encrypted octets at 64.
#[test]
fn an_encrypted_message_has_an_algorithm_and_octets(rt: HostRuntime) {
    let Ok(data) = EncryptedData::from_der(rt.alloc(), &ENCRYPTED[15..]) else {
        holds(&rt, false);
        return;
    };
    same(&rt, data.version.to_number::<u8>(), Some(0));
    let info = data.encrypted_content_info;
    holds(&rt, info.content_type == id_data());
    same_octets(
        &rt,
        info.content_encryption_algorithm.oid.octets(),
        &ENCRYPTED[37..46],
    );
    match info.content_encryption_algorithm.parameters.0 {
        Some(vector) => {
            same(&rt, vector.tag, Tag::OctetString);
            same_octets(&rt, vector.contents, &ENCRYPTED[48..64]);
        }
        None => holds(&rt, false),
    }
    match info.encrypted_content.0 {
        Some(content) => same_octets(&rt, content.0.octets(), &ENCRYPTED[66..]),
        None => holds(&rt, false),
    }
    holds(&rt, data.unprotected_attrs.0.is_none());
}

// `openssl asn1parse` lists the digest at octet 56.
#[test]
fn a_digested_message_has_a_content_and_a_digest(rt: HostRuntime) {
    let Ok(data) = DigestedData::from_der(rt.alloc(), &DIGESTED[15..]) else {
        holds(&rt, false);
        return;
    };
    same(&rt, data.version.to_number::<u8>(), Some(0));
    holds(&rt, data.digest_algorithm.oid == id_sha256());
    holds(&rt, data.encap_content_info.e_content_type == id_data());
    match data.encap_content_info.e_content.0 {
        Some(content) => same_octets(&rt, content.0.octets(), b"hello\n"),
        None => holds(&rt, false),
    }
    same_octets(&rt, data.digest.octets(), &DIGESTED[58..]);
}

// `openssl asn1parse` lists the compressed octets at octet 52.
#[test]
fn a_compressed_message_has_octets_of_zlib(rt: HostRuntime) {
    let Ok(data) = CompressedData::from_der(rt.alloc(), &COMPRESSED[17..]) else {
        holds(&rt, false);
        return;
    };
    same(&rt, data.version.to_number::<u8>(), Some(0));
    holds(
        &rt,
        data.compression_algorithm.oid == id_alg_zlib_compress(),
    );
    match data.encap_content_info.e_content.0 {
        Some(content) => same_octets(&rt, content.0.octets(), &COMPRESSED[54..]),
        None => holds(&rt, false),
    }
}

// The encrypted octets begin at octet 49 of the EncryptedData, 18 octets from its end. DER allows
// no segments (X.690, 10.2), so what begins with 0xA0 is not that field. The digest begins at octet
// 41 of the DigestedData.
#[test]
fn other_octets_are_no_encrypted_message(rt: HostRuntime) {
    let alloc = rt.alloc();
    // the constructed form of the tag, which DER does not allow, and another tag
    let tag = Tag::ContextSpecific {
        constructed: true,
        number: TagNumber(0),
    };
    let rows = [
        (0xA0, ErrorKind::Noncanonical { tag }.at(Length::new(50))),
        (0x81, trailing(49, 18)),
    ];
    for (identifier, error) in rows {
        let mut octets = ENCRYPTED;
        octets[64] = identifier;
        let refused = refusal::<EncryptedData>(alloc, &octets[15..]);
        same_at(&rt, identifier, refused, Some(error));
    }
    let mut octets = DIGESTED;
    octets[56] = 0x03;
    same(
        &rt,
        refusal::<DigestedData>(alloc, &octets[15..]),
        Some(unexpected(Tag::OctetString, Tag::BitString)),
    );
}
