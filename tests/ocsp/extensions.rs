//! The values of extensions (RFC 6960, 4.4).
use super::extension_octets::{ACCEPTABLE, CRL, CUTOFF, LOCATOR, NONCE, PREFERRED};
use crate::checks::{holds, same, same_at, same_octets};
use crate::fixtures::again::{is_same, refusal};
use crate::fixtures::errors::{trailing, unexpected};
use der::{DecodeBytes, ErrorKind, Length, Tag};
use ocsp::asn1::values::{id_pkix_ocsp, id_pkix_ocsp_basic};
use ocsp::{
    AcceptableResponses, ArchiveCutoff, CrlId, Nonce, PreferredSignatureAlgorithms, ServiceLocator,
};
use x509::GeneralName;

#[test]
fn extensions_are_written_as_they_were(rt: HostRuntime) {
    holds(&rt, is_same::<Nonce>(rt.alloc(), &NONCE));
    holds(&rt, is_same::<CrlId>(rt.alloc(), &CRL));
    holds(&rt, is_same::<AcceptableResponses>(rt.alloc(), &ACCEPTABLE));
    holds(&rt, is_same::<ArchiveCutoff>(rt.alloc(), &CUTOFF));
    holds(&rt, is_same::<ServiceLocator>(rt.alloc(), &LOCATOR));
    holds(&rt, is_same::<PreferredSignatureAlgorithms>(rt.alloc(), &PREFERRED));
}

#[test]
fn a_crl_has_an_address_a_number_and_a_time(rt: HostRuntime) {
    let Ok(crl) = CrlId::from_der(rt.alloc(), &CRL) else {
        holds(&rt, false);
        return;
    };
    let (Some(url), Some(number), Some(time)) = (crl.crl_url.0, crl.crl_num.0, crl.crl_time.0)
    else {
        holds(&rt, false);
        return;
    };
    same_octets(&rt, url.0.octets(), b"http://a/b");
    same(&rt, number.0.to_number::<u8>(), Some(7));
    same(&rt, time.0.date_time().hour, 12);
}

// Each field is optional. The INTEGER is octets 4 to 6.
#[test]
fn a_crl_has_no_other_fields(rt: HostRuntime) {
    let alloc = rt.alloc();
    holds(&rt, is_same::<CrlId>(alloc, &[0x30, 0]));
    holds(&rt, is_same::<CrlId>(alloc, &[0x30, 5, 0xA1, 3, 2, 1, 7]));
    same_at(
        &rt,
        "tag 3",
        refusal::<CrlId>(alloc, &[0x30, 5, 0xA3, 3, 2, 1, 7]),
        Some(trailing(2, 5)),
    );
    same_at(
        &rt,
        "an implicit tag",
        refusal::<CrlId>(alloc, &[0x30, 3, 0x81, 1, 7]),
        Some(trailing(2, 3)),
    );
    same_at(
        &rt,
        "two numbers",
        refusal::<CrlId>(alloc, &[0x30, 8, 0xA1, 6, 2, 1, 7, 2, 1, 8]),
        Some(trailing(7, 3)),
    );
}

#[test]
fn acceptable_responses_are_identifiers(rt: HostRuntime) {
    let alloc = rt.alloc();
    let Ok(types) = AcceptableResponses::from_der(alloc, &ACCEPTABLE) else {
        holds(&rt, false);
        return;
    };
    same(&rt, types.iter(alloc).count(), 2);
    match types.iter(alloc).next() {
        Some(first) => holds(&rt, first == id_pkix_ocsp_basic()),
        None => holds(&rt, false),
    }
    same(
        &rt,
        refusal::<AcceptableResponses>(alloc, &[0x30, 2, 5, 0]),
        Some(unexpected(Tag::ObjectIdentifier, Tag::Null)),
    );
}

// RFC 6960, 4.2.2.1: times have no fractions of a second.
#[test]
fn a_cutoff_is_a_time_in_seconds(rt: HostRuntime) {
    match ArchiveCutoff::from_der(rt.alloc(), &CUTOFF) {
        Ok(time) => same(&rt, time.date_time().year, 2025),
        Err(_) => holds(&rt, false),
    }
    let time = ErrorKind::Value {
        tag: Tag::GeneralizedTime,
    };
    same(
        &rt,
        refusal::<ArchiveCutoff>(rt.alloc(), b"\x18\x1120251126120000.5Z"),
        Some(time.at(Length::new(19))),
    );
}

#[test]
fn a_locator_names_an_issuer_and_a_responder(rt: HostRuntime) {
    let alloc = rt.alloc();
    let Ok(locator) = ServiceLocator::from_der(alloc, &LOCATOR) else {
        holds(&rt, false);
        return;
    };
    same_octets(&rt, locator.issuer.levels.octets(), &LOCATOR[4..16]);
    let Some(places) = locator.locator.0 else {
        holds(&rt, false);
        return;
    };
    same(&rt, places.iter(alloc).count(), 1);
    for place in places.iter(alloc) {
        holds(&rt, place.access_method == id_pkix_ocsp());
        match place.access_location {
            GeneralName::UniformResourceIdentifier(place) => {
                same_octets(&rt, place.0.octets(), b"http://a");
            }
            _ => holds(&rt, false),
        }
    }
    holds(&rt, is_same::<ServiceLocator>(alloc, &[0x30, 2, 0x30, 0]));
}

#[test]
fn preferred_algorithms_may_name_that_of_the_key(rt: HostRuntime) {
    let alloc = rt.alloc();
    let Ok(algorithms) = PreferredSignatureAlgorithms::from_der(alloc, &PREFERRED) else {
        holds(&rt, false);
        return;
    };
    let mut numbers = algorithms.iter(alloc);
    let (Some(first), Some(second)) = (numbers.next(), numbers.next()) else {
        holds(&rt, false);
        return;
    };
    same_octets(&rt, first.sig_identifier.oid.octets(), &PREFERRED[8..16]);
    match first.cert_identifier.0 {
        Some(key) => same_octets(&rt, key.oid.octets(), &PREFERRED[20..27]),
        None => holds(&rt, false),
    }
    same_octets(&rt, second.sig_identifier.oid.octets(), &PREFERRED[43..52]);
    holds(&rt, second.cert_identifier.0.is_none());
    holds(&rt, numbers.next().is_none());
}
