//! Messages that are encrypted for recipients.
use super::encrypted_octets::{AUTH_ENVELOPED, FOUR_RECIPIENTS, KEY_AGREEMENT, KEY_TRANSPORT};
use crate::checks::{holds, same, same_octets};
use crate::fixtures::again::is_same;
use cms::asn1::values::{id_alg_pwri_kek, id_ct_auth_enveloped_data, id_data, id_enveloped_data};
use cms::{
    AuthEnvelopedData, ContentInfo, EnvelopedData, KeyAgreeRecipientIdentifier,
    OriginatorIdentifierOrKey, RecipientIdentifier, RecipientInfo,
};
use der::DecodeBytes;

#[test]
fn enveloped_messages_are_written_as_they_were(rt: HostRuntime) {
    let alloc = rt.alloc();
    holds(&rt, is_same::<ContentInfo>(alloc, &KEY_TRANSPORT));
    holds(&rt, is_same::<ContentInfo>(alloc, &AUTH_ENVELOPED));
    holds(&rt, is_same::<EnvelopedData>(alloc, &KEY_TRANSPORT[18..]));
    holds(&rt, is_same::<EnvelopedData>(alloc, &KEY_AGREEMENT[17..]));
    holds(&rt, is_same::<EnvelopedData>(alloc, &FOUR_RECIPIENTS[19..]));
    holds(
        &rt,
        is_same::<AuthEnvelopedData>(alloc, &AUTH_ENVELOPED[19..]),
    );
}

// `openssl asn1parse` lists the encrypted key at octet 67, the algorithm of the content at 211 and
// the encrypted content at 242.
#[test]
fn a_key_is_encrypted_for_an_rsa_key(rt: HostRuntime) {
    let alloc = rt.alloc();
    let Ok(data) = EnvelopedData::from_der(alloc, &KEY_TRANSPORT[18..]) else {
        holds(&rt, false);
        return;
    };
    same(&rt, data.version.to_number::<u8>(), Some(0));
    holds(&rt, data.originator_info.0.is_none());
    holds(&rt, data.unprotected_attrs.0.is_none());
    holds(&rt, data.encrypted_content_info.content_type == id_data());
    let algorithm = data.encrypted_content_info.content_encryption_algorithm;
    same_octets(&rt, algorithm.oid.octets(), &KEY_TRANSPORT[215..224]);
    match data.encrypted_content_info.encrypted_content.0 {
        Some(content) => same_octets(&rt, content.0.octets(), &KEY_TRANSPORT[244..]),
        None => holds(&rt, false),
    }
    same(&rt, data.recipient_infos.items.iter(alloc).count(), 1);
    for recipient in data.recipient_infos.items.iter(alloc) {
        let RecipientInfo::Ktri(recipient) = recipient else {
            holds(&rt, false);
            return;
        };
        same(&rt, recipient.version.to_number::<u8>(), Some(0));
        match recipient.rid {
            RecipientIdentifier::IssuerAndSerialNumber(name) => {
                same(&rt, name.serial_number.to_number::<u8>(), Some(3));
            }
            RecipientIdentifier::SubjectKeyIdentifier(_) => holds(&rt, false),
        }
        same_octets(
            &rt,
            recipient.encrypted_key.octets(),
            &KEY_TRANSPORT[70..198],
        );
    }
}

// `openssl asn1parse` lists the point of the originator at octet 47 and the parameters of the
// algorithm at 128.
#[test]
fn a_key_is_agreed_with_the_key_of_the_originator(rt: HostRuntime) {
    let alloc = rt.alloc();
    let Ok(data) = EnvelopedData::from_der(alloc, &KEY_AGREEMENT[17..]) else {
        holds(&rt, false);
        return;
    };
    same(&rt, data.version.to_number::<u8>(), Some(2));
    for recipient in data.recipient_infos.items.iter(alloc) {
        let RecipientInfo::Kari(recipient) = recipient else {
            holds(&rt, false);
            return;
        };
        same(&rt, recipient.0.version.to_number::<u8>(), Some(3));
        match recipient.0.originator.0.value {
            OriginatorIdentifierOrKey::OriginatorKey(key) => {
                same_octets(&rt, key.0.algorithm.oid.octets(), &KEY_AGREEMENT[40..47]);
                holds(&rt, key.0.algorithm.parameters.0.is_none());
                let point = key.0.subject_public_key.octets();
                same_octets(&rt, point, &KEY_AGREEMENT[49..115]);
            }
            _ => holds(&rt, false),
        }
        holds(&rt, recipient.0.ukm.0.is_none());
        match recipient.0.key_encryption_algorithm.parameters.0 {
            Some(wrap) => same_octets(&rt, wrap.contents, &KEY_AGREEMENT[130..141]),
            None => holds(&rt, false),
        }
    }
}

// `openssl asn1parse` lists the issuer at octet 147 and the encrypted key at 164.
#[test]
fn a_key_is_encrypted_with_an_agreed_key(rt: HostRuntime) {
    let alloc = rt.alloc();
    let Ok(data) = EnvelopedData::from_der(alloc, &KEY_AGREEMENT[17..]) else {
        holds(&rt, false);
        return;
    };
    let Some(RecipientInfo::Kari(recipient)) = data.recipient_infos.items.iter(alloc).next() else {
        holds(&rt, false);
        return;
    };
    let keys = recipient.0.recipient_encrypted_keys;
    same(&rt, keys.iter(alloc).count(), 1);
    for key in keys.iter(alloc) {
        match key.rid {
            KeyAgreeRecipientIdentifier::IssuerAndSerialNumber(name) => {
                same_octets(&rt, name.issuer.levels.octets(), &KEY_AGREEMENT[149..161]);
                same(&rt, name.serial_number.to_number::<u8>(), Some(2));
            }
            KeyAgreeRecipientIdentifier::RKeyId(_) => holds(&rt, false),
        }
        same_octets(&rt, key.encrypted_key.octets(), &KEY_AGREEMENT[166..190]);
    }
}

// The kind of a recipient, by its number in RFC 5652, 6.2.
fn number_of(recipient: &RecipientInfo<'_>) -> u8 {
    match recipient {
        RecipientInfo::Ktri(_) => 0,
        RecipientInfo::Kari(_) => 1,
        RecipientInfo::Kekri(_) => 2,
        RecipientInfo::Pwri(_) => 3,
        RecipientInfo::Ori(_) => 4,
    }
}

#[test]
fn four_recipients_are_in_ascending_order(rt: HostRuntime) {
    let alloc = rt.alloc();
    let Ok(data) = EnvelopedData::from_der(alloc, &FOUR_RECIPIENTS[19..]) else {
        holds(&rt, false);
        return;
    };
    same(&rt, data.version.to_number::<u8>(), Some(3));
    let mut number = 0;
    for recipient in data.recipient_infos.items.iter(alloc) {
        same(&rt, number_of(&recipient), number);
        number += 1;
    }
    same(&rt, number, 4);
}

// `openssl asn1parse` lists the identifiers of the two keys at the octets 36 and 325.
#[test]
fn recipients_are_named_by_their_keys(rt: HostRuntime) {
    let alloc = rt.alloc();
    let Ok(data) = EnvelopedData::from_der(alloc, &FOUR_RECIPIENTS[19..]) else {
        holds(&rt, false);
        return;
    };
    let mut recipients = data.recipient_infos.items.iter(alloc);
    let (Some(RecipientInfo::Ktri(first)), Some(RecipientInfo::Kari(second))) = (
        recipients.next(),
        recipients.next(),
    ) else {
        holds(&rt, false);
        return;
    };
    match first.rid {
        RecipientIdentifier::SubjectKeyIdentifier(key) => {
            same_octets(&rt, key.0.octets(), &FOUR_RECIPIENTS[38..58]);
        }
        RecipientIdentifier::IssuerAndSerialNumber(_) => holds(&rt, false),
    }
    for key in second.0.recipient_encrypted_keys.iter(alloc) {
        match key.rid {
            KeyAgreeRecipientIdentifier::RKeyId(key) => {
                same_octets(
                    &rt,
                    key.0.key_identifier.octets(),
                    &FOUR_RECIPIENTS[327..347],
                );
                holds(&rt, key.0.date.0.is_none());
                holds(&rt, key.0.other.0.is_none());
            }
            KeyAgreeRecipientIdentifier::IssuerAndSerialNumber(_) => holds(&rt, false),
        }
    }
}

// `openssl asn1parse` lists the key with the shared key at octet 399, and the one with the password
// at 505, with the algorithms at 430 and 459.
#[test]
fn keys_are_encrypted_with_a_shared_key_and_a_password(rt: HostRuntime) {
    let alloc = rt.alloc();
    let Ok(data) = EnvelopedData::from_der(alloc, &FOUR_RECIPIENTS[19..]) else {
        holds(&rt, false);
        return;
    };
    let mut recipients = data.recipient_infos.items.iter(alloc);
    let (_, _) = (recipients.next(), recipients.next());
    let (Some(RecipientInfo::Kekri(shared)), Some(RecipientInfo::Pwri(password))) = (
        recipients.next(),
        recipients.next(),
    ) else {
        holds(&rt, false);
        return;
    };
    same(&rt, shared.0.version.to_number::<u8>(), Some(4));
    same_octets(&rt, shared.0.kekid.key_identifier.octets(), &[1, 2, 3, 4]);
    same_octets(
        &rt,
        shared.0.encrypted_key.octets(),
        &FOUR_RECIPIENTS[401..425],
    );
    same(&rt, password.0.version.to_number::<u8>(), Some(0));
    match password.0.key_derivation_algorithm.0 {
        Some(derived) => same_octets(&rt, derived.0.oid.octets(), &FOUR_RECIPIENTS[434..443]),
        None => holds(&rt, false),
    }
    holds(
        &rt,
        password.0.key_encryption_algorithm.oid == id_alg_pwri_kek(),
    );
    same_octets(
        &rt,
        password.0.encrypted_key.octets(),
        &FOUR_RECIPIENTS[507..539],
    );
}

// `openssl asn1parse` lists the encrypted content at octet 124, and the code at 132.
#[test]
fn an_authenticated_encryption_has_a_code(rt: HostRuntime) {
    let alloc = rt.alloc();
    match ContentInfo::from_der(alloc, &AUTH_ENVELOPED) {
        Ok(message) => holds(&rt, message.content_type == id_ct_auth_enveloped_data()),
        Err(_) => holds(&rt, false),
    }
    let Ok(data) = AuthEnvelopedData::from_der(alloc, &AUTH_ENVELOPED[19..]) else {
        holds(&rt, false);
        return;
    };
    same(&rt, data.version.to_number::<u8>(), Some(0));
    same(&rt, data.recipient_infos.items.iter(alloc).count(), 1);
    match data.auth_encrypted_content_info.encrypted_content.0 {
        Some(content) => same_octets(&rt, content.0.octets(), &AUTH_ENVELOPED[126..132]),
        None => holds(&rt, false),
    }
    same_octets(&rt, data.mac.octets(), &AUTH_ENVELOPED[134..]);
    holds(&rt, data.auth_attrs.0.is_none());
    holds(&rt, data.unauth_attrs.0.is_none());
}

#[test]
fn an_enveloped_message_has_its_type(rt: HostRuntime) {
    match ContentInfo::from_der(rt.alloc(), &KEY_AGREEMENT) {
        Ok(message) => holds(&rt, message.content_type == id_enveloped_data()),
        Err(_) => holds(&rt, false),
    }
}
