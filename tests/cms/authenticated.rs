//! Messages with a message authentication code.
use super::encrypted_octets::AUTHENTICATED;
use crate::checks::{holds, same, same_octets};
use crate::fixtures::again::is_same;
use cms::asn1::values::{id_content_type, id_ct_auth_data, id_data, id_message_digest, id_sha256};
use cms::{AuthenticatedData, ContentInfo, RecipientInfo};
use der::{DecodeBytes, Tag};

#[test]
fn an_authenticated_message_is_written_as_it_was(rt: HostRuntime) {
    let alloc = rt.alloc();
    holds(&rt, is_same::<ContentInfo>(alloc, &AUTHENTICATED));
    holds(
        &rt,
        is_same::<AuthenticatedData>(alloc, &AUTHENTICATED[19..]),
    );
    match ContentInfo::from_der(alloc, &AUTHENTICATED) {
        Ok(message) => holds(&rt, message.content_type == id_ct_auth_data()),
        Err(_) => holds(&rt, false),
    }
}

// `openssl cms -cmsout -print` prints the content `hi` and the octets of the code.
#[test]
fn an_authenticated_message_has_a_content_and_a_code(rt: HostRuntime) {
    let Ok(data) = AuthenticatedData::from_der(rt.alloc(), &AUTHENTICATED[19..]) else {
        holds(&rt, false);
        return;
    };
    same(&rt, data.version.to_number::<u8>(), Some(0));
    holds(&rt, data.originator_info.0.is_none());
    same_octets(&rt, data.mac_algorithm.oid.octets(), &AUTHENTICATED[88..96]);
    match data.digest_algorithm.0 {
        Some(algorithm) => holds(&rt, algorithm.0.oid == id_sha256()),
        None => holds(&rt, false),
    }
    holds(&rt, data.encap_content_info.e_content_type == id_data());
    match data.encap_content_info.e_content.0 {
        Some(content) => same_octets(&rt, content.0.octets(), b"hi"),
        None => holds(&rt, false),
    }
    same_octets(&rt, data.mac.octets(), &[0xA0, 0xA1, 0xA2, 0xA3]);
}

// The shorter attribute, messageDigest, comes first.
#[test]
fn a_code_covers_some_attributes(rt: HostRuntime) {
    let alloc = rt.alloc();
    let Ok(data) = AuthenticatedData::from_der(alloc, &AUTHENTICATED[19..]) else {
        holds(&rt, false);
        return;
    };
    let (Some(covered), Some(others)) = (data.auth_attrs.0, data.unauth_attrs.0) else {
        holds(&rt, false);
        return;
    };
    let mut attributes = covered.0.items.iter(alloc);
    let (Some(first), Some(second)) = (attributes.next(), attributes.next()) else {
        holds(&rt, false);
        return;
    };
    holds(&rt, first.oid == id_message_digest());
    holds(&rt, second.oid == id_content_type());
    same(&rt, others.0.items.iter(alloc).count(), 1);
    for attribute in others.0.items.iter(alloc) {
        same_octets(&rt, attribute.oid.octets(), &[42, 3, 5]);
        same_octets(&rt, attribute.values.octets(), &[5, 0]);
    }
}

// `openssl cms -cmsout -print` prints the time and the attribute 1.2.3.4 with the text `k`.
#[test]
fn a_shared_key_has_a_time_and_an_attribute(rt: HostRuntime) {
    let alloc = rt.alloc();
    let Ok(data) = AuthenticatedData::from_der(alloc, &AUTHENTICATED[19..]) else {
        holds(&rt, false);
        return;
    };
    for recipient in data.recipient_infos.items.iter(alloc) {
        let RecipientInfo::Kekri(recipient) = recipient else {
            holds(&rt, false);
            return;
        };
        let key = recipient.0.kekid;
        same_octets(&rt, key.key_identifier.octets(), &[1, 2, 3, 4]);
        let (Some(date), Some(other)) = (key.date.0, key.other.0) else {
            holds(&rt, false);
            return;
        };
        same(&rt, date.date_time().day, 26);
        same_octets(&rt, other.oid.octets(), &[42, 3, 4]);
        match other.parameters.0 {
            Some(value) => {
                same(&rt, value.tag, Tag::Utf8String);
                same_octets(&rt, value.contents, b"k");
            }
            None => holds(&rt, false),
        }
        same_octets(&rt, recipient.0.encrypted_key.octets(), &[0x0B, 0x0C]);
    }
}
