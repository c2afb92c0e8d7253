//! The rules that a certificate breaks.
use crate::checks::{holds, same_at};
use crate::x509::certificates::SELF_SIGNED;
use der::DecodeBytes;
use der_asn1::{DateTime, Explicit, GeneralizedTime, Optional};
use std::alloc::Global;
use x509::{Certificate, Extensions, Name, TbsCertificate, Time, Validity};
use x509_lint::{AttributeRule, ExtensionRule, Finding, NameRule, PairRule, Place, Rule};

// A certification authority: `openssl req -x509 -utf8 -set_serial 0x1234` with Ed25519 and the
// subject `/C=SE/ST=Sk\xE5ne/O=Example/CN=CA/emailAddress=a@example.org`, and the extensions
// `basicConstraints=critical,CA:TRUE,pathlen:1`, `keyUsage=critical,keyCertSign,cRLSign`,
// `nameConstraints=critical,permitted;DNS:example.org`,
// `policyConstraints=critical,requireExplicitPolicy:1`, `inhibitAnyPolicy=critical,0`,
// `certificatePolicies=1.2.3.4` and `authorityInfoAccess=OCSP;URI:http://a.org/`.
static AUTHORITY: [u8; 557] = [
    0x30, 0x82, 0x02, 0x29, 0x30, 0x82, 0x01, 0xDB, 0xA0, 0x03, 0x02, 0x01, 0x02, 0x02, 0x02, 0x12,
    0x34, 0x30, 0x05, 0x06, 0x03, 0x2B, 0x65, 0x70, 0x30, 0x5B, 0x31, 0x0B, 0x30, 0x09, 0x06, 0x03,
    0x55, 0x04, 0x06, 0x13, 0x02, 0x53, 0x45, 0x31, 0x0F, 0x30, 0x0D, 0x06, 0x03, 0x55, 0x04, 0x08,
    0x0C, 0x06, 0x53, 0x6B, 0xC3, 0xA5, 0x6E, 0x65, 0x31, 0x10, 0x30, 0x0E, 0x06, 0x03, 0x55, 0x04,
    0x0A, 0x0C, 0x07, 0x45, 0x78, 0x61, 0x6D, 0x70, 0x6C, 0x65, 0x31, 0x0B, 0x30, 0x09, 0x06, 0x03,
    0x55, 0x04, 0x03, 0x0C, 0x02, 0x43, 0x41, 0x31, 0x1C, 0x30, 0x1A, 0x06, 0x09, 0x2A, 0x86, 0x48,
    0x86, 0xF7, 0x0D, 0x01, 0x09, 0x01, 0x16, 0x0D, 0x61, 0x40, 0x65, 0x78, 0x61, 0x6D, 0x70, 0x6C,
    0x65, 0x2E, 0x6F, 0x72, 0x67, 0x30, 0x1E, 0x17, 0x0D, 0x32, 0x36, 0x31, 0x31, 0x32, 0x36, 0x31,
    0x38, 0x34, 0x33, 0x33, 0x39, 0x5A, 0x17, 0x0D, 0x32, 0x37, 0x31, 0x31, 0x32, 0x36, 0x31, 0x38,
    0x34, 0x33, 0x33, 0x39, 0x5A, 0x30, 0x5B, 0x31, 0x0B, 0x30, 0x09, 0x06, 0x03, 0x55, 0x04, 0x06,
    0x13, 0x02, 0x53, 0x45, 0x31, 0x0F, 0x30, 0x0D, 0x06, 0x03, 0x55, 0x04, 0x08, 0x0C, 0x06, 0x53,
    0x6B, 0xC3, 0xA5, 0x6E, 0x65, 0x31, 0x10, 0x30, 0x0E, 0x06, 0x03, 0x55, 0x04, 0x0A, 0x0C, 0x07,
    0x45, 0x78, 0x61, 0x6D, 0x70, 0x6C, 0x65, 0x31, 0x0B, 0x30, 0x09, 0x06, 0x03, 0x55, 0x04, 0x03,
    0x0C, 0x02, 0x43, 0x41, 0x31, 0x1C, 0x30, 0x1A, 0x06, 0x09, 0x2A, 0x86, 0x48, 0x86, 0xF7, 0x0D,
    0x01, 0x09, 0x01, 0x16, 0x0D, 0x61, 0x40, 0x65, 0x78, 0x61, 0x6D, 0x70, 0x6C, 0x65, 0x2E, 0x6F,
    0x72, 0x67, 0x30, 0x2A, 0x30, 0x05, 0x06, 0x03, 0x2B, 0x65, 0x70, 0x03, 0x21, 0x00, 0xC6, 0x3A,
    0x55, 0x97, 0x0B, 0xF6, 0xB8, 0x9D, 0xA6, 0xA2, 0x6C, 0x55, 0x24, 0xBC, 0xFE, 0xEE, 0xD1, 0x0D,
    0xF1, 0xDB, 0x8B, 0x2E, 0x54, 0x5E, 0xE4, 0xAD, 0xE3, 0xA7, 0x11, 0xF5, 0xD4, 0x87, 0xA3, 0x81,
    0xC2, 0x30, 0x81, 0xBF, 0x30, 0x12, 0x06, 0x03, 0x55, 0x1D, 0x13, 0x01, 0x01, 0xFF, 0x04, 0x08,
    0x30, 0x06, 0x01, 0x01, 0xFF, 0x02, 0x01, 0x01, 0x30, 0x0E, 0x06, 0x03, 0x55, 0x1D, 0x0F, 0x01,
    0x01, 0xFF, 0x04, 0x04, 0x03, 0x02, 0x01, 0x06, 0x30, 0x1D, 0x06, 0x03, 0x55, 0x1D, 0x1E, 0x01,
    0x01, 0xFF, 0x04, 0x13, 0x30, 0x11, 0xA0, 0x0F, 0x30, 0x0D, 0x82, 0x0B, 0x65, 0x78, 0x61, 0x6D,
    0x70, 0x6C, 0x65, 0x2E, 0x6F, 0x72, 0x67, 0x30, 0x0F, 0x06, 0x03, 0x55, 0x1D, 0x24, 0x01, 0x01,
    0xFF, 0x04, 0x05, 0x30, 0x03, 0x80, 0x01, 0x01, 0x30, 0x0D, 0x06, 0x03, 0x55, 0x1D, 0x36, 0x01,
    0x01, 0xFF, 0x04, 0x03, 0x02, 0x01, 0x00, 0x30, 0x10, 0x06, 0x03, 0x55, 0x1D, 0x20, 0x04, 0x09,
    0x30, 0x07, 0x30, 0x05, 0x06, 0x03, 0x2A, 0x03, 0x04, 0x30, 0x29, 0x06, 0x08, 0x2B, 0x06, 0x01,
    0x05, 0x05, 0x07, 0x01, 0x01, 0x04, 0x1D, 0x30, 0x1B, 0x30, 0x19, 0x06, 0x08, 0x2B, 0x06, 0x01,
    0x05, 0x05, 0x07, 0x30, 0x01, 0x86, 0x0D, 0x68, 0x74, 0x74, 0x70, 0x3A, 0x2F, 0x2F, 0x61, 0x2E,
    0x6F, 0x72, 0x67, 0x2F, 0x30, 0x1D, 0x06, 0x03, 0x55, 0x1D, 0x0E, 0x04, 0x16, 0x04, 0x14, 0x12,
    0x8C, 0x4F, 0xB2, 0xDB, 0x28, 0x7E, 0xF0, 0x8D, 0x17, 0x6A, 0x54, 0xF9, 0xE9, 0x8D, 0xE6, 0xFB,
    0x39, 0xFF, 0x24, 0x30, 0x05, 0x06, 0x03, 0x2B, 0x65, 0x70, 0x03, 0x41, 0x00, 0x23, 0x3C, 0x39,
    0xBC, 0xCC, 0xCA, 0xE6, 0x3D, 0x05, 0x68, 0x13, 0xF9, 0x87, 0x93, 0x4D, 0x30, 0x4A, 0x8B, 0x81,
    0xE7, 0x8A, 0xB6, 0xBD, 0xFE, 0xCD, 0x23, 0x97, 0x9E, 0x65, 0xE1, 0xE7, 0x93, 0xBB, 0x8B, 0xFF,
    0x0D, 0x4E, 0xD8, 0xF1, 0x07, 0x4B, 0x93, 0x5F, 0x22, 0xBC, 0xCB, 0x7E, 0xEF, 0xE2, 0xC3, 0xCE,
    0x1D, 0xB1, 0x2D, 0x9E, 0xEE, 0x49, 0x41, 0x3A, 0xA7, 0x33, 0x4C, 0xF2, 0x06,
];

// The findings, of which there are three at most.
type Findings = (Option<Finding>, Option<Finding>, Option<Finding>);

// The first three findings; and none if there are more. The authority is self-signed and has no
// authorityKeyIdentifier, so another issuer or subject breaks a rule that these tests leave out.
fn findings(alloc: Global, certificate: &Certificate<'_>) -> Findings {
    let mut lint = x509_lint::findings(alloc, certificate)
        .filter(|finding| finding.rule != Rule::KeyIdentifier);
    let first = lint.next();
    let second = lint.next();
    let third = lint.next();
    if lint.next().is_some() {
        return (None, None, None);
    }
    (first, second, third)
}

// The findings of a certificate of these octets; a finding that none has if it is not decoded.
fn findings_of(alloc: Global, octets: &[u8]) -> Findings {
    match Certificate::from_der(alloc, octets) {
        Ok(certificate) => findings(alloc, &certificate),
        Err(_) => unmade(),
    }
}

// The findings of the authority's certificate with another octet at a place.
fn findings_with(alloc: Global, place: usize, octet: u8) -> Findings {
    let mut octets = AUTHORITY;
    if place < octets.len() {
        octets[place] = octet;
    }
    findings_of(alloc, &octets)
}

fn only(rule: Rule, place: Place) -> Findings {
    (Some(Finding { rule, place }), None, None)
}

#[test]
fn certificates_of_openssl_keep_all_rules(rt: HostRuntime) {
    let none = (None, None, None);
    same_at(
        &rt,
        "self-signed",
        findings_of(rt.alloc(), &SELF_SIGNED),
        none,
    );
    same_at(&rt, "authority", findings_of(rt.alloc(), &AUTHORITY), none);
}

// The version is octet 12, the serial number begins at octet 15, and the algorithm of the signature
// ends with octet 489. The year in which the certificate ends is in the octets 136 and 137.
#[test]
fn a_field_that_breaks_a_rule_is_found(rt: HostRuntime) {
    let whole = |rule: Rule| -> Findings { only(rule, Place::Certificate) };
    same_at(
        &rt,
        "version 2",
        findings_with(rt.alloc(), 12, 1),
        whole(Rule::VersionFields),
    );
    same_at(
        &rt,
        "algorithm",
        findings_with(rt.alloc(), 489, 0x71),
        whole(Rule::SameAlgorithms),
    );
    same_at(
        &rt,
        "negative",
        findings_with(rt.alloc(), 15, 0x92),
        whole(Rule::SerialNumber),
    );
    same_at(
        &rt,
        "order",
        findings_with(rt.alloc(), 137, 0x35),
        whole(Rule::TimeOrder),
    );
}

// The issuer's country begins at octet 37, its state at octet 50, and the type of its organization
// ends with octet 64. The subject's country begins at octet 162, and the type of its common name
// ends with octet 207.
#[test]
fn the_first_level_of_a_name_that_breaks_a_rule_is_found(rt: HostRuntime) {
    let length = NameRule::Attributes(AttributeRule::Length);
    let characters = NameRule::Attributes(AttributeRule::Characters);
    let string_type = NameRule::Attributes(AttributeRule::StringType);
    same_at(
        &rt,
        "an issuer of country @E",
        findings_with(rt.alloc(), 37, 0x40),
        only(Rule::Issuer(characters), Place::Attribute(0, 0)),
    );
    same_at(
        &rt,
        "an issuer whose state is not UTF-8",
        findings_with(rt.alloc(), 52, 0x80),
        only(Rule::Issuer(characters), Place::Attribute(1, 0)),
    );
    same_at(
        &rt,
        "an issuer of country Example, in UTF-8",
        findings_with(rt.alloc(), 64, 6),
        (
            only(Rule::Issuer(length), Place::Attribute(2, 0)).0,
            only(Rule::Issuer(string_type), Place::Attribute(2, 0)).0,
            None,
        ),
    );
    same_at(
        &rt,
        "a subject of country _E",
        findings_with(rt.alloc(), 162, 0x5F),
        only(Rule::Subject(characters), Place::Attribute(0, 0)),
    );
    same_at(
        &rt,
        "a subject whose common name is a country, in UTF-8",
        findings_with(rt.alloc(), 207, 6),
        only(Rule::Subject(string_type), Place::Attribute(3, 0)),
    );
}

// A finding that no certificate has, where a test is not made as it should be.
fn unmade() -> Findings {
    only(Rule::VersionFields, Place::Extension(99))
}

// The findings of the authority's certificate with another issuer.
fn findings_with_issuer(alloc: Global, octets: &[u8]) -> Findings {
    let Ok(certificate) = Certificate::from_der(alloc, &AUTHORITY) else {
        return unmade();
    };
    let Ok(issuer) = Name::from_der(alloc, octets) else {
        return unmade();
    };
    let tbs_certificate = TbsCertificate {
        issuer,
        ..certificate.tbs_certificate
    };
    findings(
        alloc,
        &Certificate {
            tbs_certificate,
            ..certificate
        },
    )
}

// A name of one level, with a common name of n times the letter a. n is less than 117.
fn common_name(octets: &mut [u8; 128], n: u8) -> &[u8] {
    let parts = [
        0x30,
        n + 11,
        0x31,
        n + 9,
        0x30,
        n + 7,
        0x06,
        0x03,
        0x55,
        0x04,
        0x03,
        0x13,
        n,
    ];
    for (at, part) in parts.iter().enumerate() {
        octets[at] = *part;
    }
    &octets[..n as usize + 13]
}

#[test]
fn a_name_without_levels_or_attributes_is_found(rt: HostRuntime) {
    same_at(
        &rt,
        "no levels",
        findings_with_issuer(rt.alloc(), &[0x30, 0x00]),
        only(Rule::IssuerPresent, Place::Certificate),
    );
    same_at(
        &rt,
        "a level without attributes",
        findings_with_issuer(rt.alloc(), &[0x30, 0x02, 0x31, 0x00]),
        only(Rule::Issuer(NameRule::Levels), Place::Level(0)),
    );
}

#[test]
fn a_common_name_has_1_to_64_characters(rt: HostRuntime) {
    let refused = only(
        Rule::Issuer(NameRule::Attributes(AttributeRule::Length)),
        Place::Attribute(0, 0),
    );
    let kept = (None, None, None);
    for (length, expected) in [(0, refused), (1, kept), (64, kept), (65, refused)] {
        let mut octets = [0x61; 128];
        same_at(
            &rt,
            length,
            findings_with_issuer(rt.alloc(), common_name(&mut octets, length)),
            expected,
        );
    }
}

// A level with the common name a, and one with the countries DE and D_, in ascending order.
static TWO_LEVELS: [u8; 38] = [
    0x30, 0x24, //
    0x31, 0x0A, 0x30, 0x08, 0x06, 0x03, 0x55, 0x04, 0x03, 0x13, 0x01, 0x61, //
    0x31, 0x16, 0x30, 0x09, 0x06, 0x03, 0x55, 0x04, 0x06, 0x13, 0x02, 0x44, 0x45, //
    0x30, 0x09, 0x06, 0x03, 0x55, 0x04, 0x06, 0x13, 0x02, 0x44, 0x5F,
];

#[test]
fn an_attribute_is_found_by_its_level_and_its_place(rt: HostRuntime) {
    same_at(
        &rt,
        0,
        findings_with_issuer(rt.alloc(), &TWO_LEVELS),
        only(
            Rule::Issuer(NameRule::Attributes(AttributeRule::Characters)),
            Place::Attribute(1, 1),
        ),
    );
}

// The findings of the authority's certificate with a last year in a GeneralizedTime.
fn findings_until(alloc: Global, year: u16) -> Findings {
    let Ok(certificate) = Certificate::from_der(alloc, &AUTHORITY) else {
        return unmade();
    };
    let Some(last) = GeneralizedTime::new(DateTime {
        year,
        month: 1,
        day: 1,
        hour: 0,
        minute: 0,
        second: 0,
    }) else {
        return unmade();
    };
    let validity = Validity {
        not_after: Time::GeneralTime(last),
        ..certificate.tbs_certificate.validity
    };
    let tbs_certificate = TbsCertificate {
        validity,
        ..certificate.tbs_certificate
    };
    findings(
        alloc,
        &Certificate {
            tbs_certificate,
            ..certificate
        },
    )
}

#[test]
fn a_generalized_time_is_of_2050_or_later(rt: HostRuntime) {
    let refused = only(Rule::TimeForms, Place::Certificate);
    same_at(&rt, 2049, findings_until(rt.alloc(), 2049), refused);
    same_at(
        &rt,
        2050,
        findings_until(rt.alloc(), 2050),
        (None, None, None),
    );
}

// The findings of the authority's certificate with other extensions.
fn findings_with_extensions(alloc: Global, octets: &[u8]) -> Findings {
    let Ok(certificate) = Certificate::from_der(alloc, &AUTHORITY) else {
        return unmade();
    };
    let Ok(extensions) = Extensions::from_der(alloc, octets) else {
        return unmade();
    };
    let tbs_certificate = TbsCertificate {
        extensions: Optional(Some(Explicit(extensions))),
        ..certificate.tbs_certificate
    };
    findings(
        alloc,
        &Certificate {
            tbs_certificate,
            ..certificate
        },
    )
}

// The findings of the authority's certificate with an empty subject and other extensions.
fn findings_without_subject(alloc: Global, octets: &[u8]) -> Findings {
    let Ok(certificate) = Certificate::from_der(alloc, &AUTHORITY) else {
        return unmade();
    };
    let Ok(subject) = Name::from_der(alloc, &[0x30, 0x00]) else {
        return unmade();
    };
    let Ok(extensions) = Extensions::from_der(alloc, octets) else {
        return unmade();
    };
    let tbs_certificate = TbsCertificate {
        subject,
        extensions: Optional(Some(Explicit(extensions))),
        ..certificate.tbs_certificate
    };
    findings(
        alloc,
        &Certificate {
            tbs_certificate,
            ..certificate
        },
    )
}

// A subjectAltName with the dNSName a, which is critical, and one that is not.
static CRITICAL_NAME: [u8; 19] = [
    0x30, 0x11, 0x30, 0x0F, 0x06, 0x03, 0x55, 0x1D, 0x11, 0x01, 0x01, 0xFF, 0x04, 0x05, 0x30, 0x03,
    0x82, 0x01, 0x61,
];

static OTHER_NAME: [u8; 16] = [
    0x30, 0x0E, 0x30, 0x0C, 0x06, 0x03, 0x55, 0x1D, 0x11, 0x04, 0x05, 0x30, 0x03, 0x82, 0x01, 0x61,
];

#[test]
fn a_certificate_without_a_subject_has_a_critical_alternative_name(rt: HostRuntime) {
    let refused = only(Rule::SubjectPresent, Place::Certificate);
    let kept = (None, None, None);
    same_at(
        &rt,
        "critical",
        findings_without_subject(rt.alloc(), &CRITICAL_NAME),
        kept,
    );
    same_at(
        &rt,
        "not critical",
        findings_without_subject(rt.alloc(), &OTHER_NAME),
        refused,
    );
    let other = findings_with_extensions(rt.alloc(), &OTHER_NAME);
    same_at(&rt, "with a subject", other, kept);
}

fn broken(rule: ExtensionRule, place: usize) -> Findings {
    only(Rule::Extension(rule), Place::Extension(place))
}

// NULL under 1.2.3.4, 1.2.3.5 and 1.2.3.4.
static REPEATED: [u8; 35] = [
    0x30, 0x21, //
    0x30, 0x09, 0x06, 0x03, 0x2A, 0x03, 0x04, 0x04, 0x02, 0x05, 0x00, //
    0x30, 0x09, 0x06, 0x03, 0x2A, 0x03, 0x05, 0x04, 0x02, 0x05, 0x00, //
    0x30, 0x09, 0x06, 0x03, 0x2A, 0x03, 0x04, 0x04, 0x02, 0x05, 0x00,
];

// An inhibitAnyPolicy that is not critical.
static NOT_CRITICAL: [u8; 14] = [
    0x30, 0x0C, 0x30, 0x0A, 0x06, 0x03, 0x55, 0x1D, 0x36, 0x04, 0x03, 0x02, 0x01, 0x00,
];

// A critical authorityInfoAccess, of OCSP at `x:y`.
static CRITICAL: [u8; 38] = [
    0x30, 0x24, 0x30, 0x22, 0x06, 0x08, 0x2B, 0x06, 0x01, 0x05, 0x05, 0x07, 0x01, 0x01, 0x01, 0x01,
    0xFF, 0x04, 0x13, 0x30, 0x11, 0x30, 0x0F, 0x06, 0x08, 0x2B, 0x06, 0x01, 0x05, 0x05, 0x07, 0x30,
    0x01, 0x86, 0x03, 0x78, 0x3A, 0x79,
];

// A subjectAltName without names.
static EMPTY: [u8; 13] = [
    0x30, 0x0B, 0x30, 0x09, 0x06, 0x03, 0x55, 0x1D, 0x11, 0x04, 0x02, 0x30, 0x00,
];

// A critical keyUsage without bits.
static NO_USAGE: [u8; 17] = [
    0x30, 0x0F, 0x30, 0x0D, 0x06, 0x03, 0x55, 0x1D, 0x0F, 0x01, 0x01, 0xFF, 0x04, 0x03, 0x03, 0x01,
    0x00,
];

#[test]
fn the_first_extension_that_breaks_a_rule_is_found(rt: HostRuntime) {
    let alloc = rt.alloc();
    let repeated = broken(ExtensionRule::Instances, 0);
    same_at(
        &rt,
        "repeated",
        findings_with_extensions(alloc, &REPEATED),
        repeated,
    );
    let not_critical = broken(ExtensionRule::Critical, 0);
    same_at(
        &rt,
        "not critical",
        findings_with_extensions(alloc, &NOT_CRITICAL),
        not_critical,
    );
    let critical = broken(ExtensionRule::NotCritical, 0);
    same_at(
        &rt,
        "critical",
        findings_with_extensions(alloc, &CRITICAL),
        critical,
    );
    let empty = broken(ExtensionRule::NotEmpty, 0);
    same_at(&rt, "empty", findings_with_extensions(alloc, &EMPTY), empty);
    let no_usage = broken(ExtensionRule::Usage, 0);
    same_at(
        &rt,
        "no usage",
        findings_with_extensions(alloc, &NO_USAGE),
        no_usage,
    );
    let none = only(Rule::ExtensionPresent, Place::Certificate);
    same_at(
        &rt,
        "no extensions",
        findings_with_extensions(alloc, &[0x30, 0x00]),
        none,
    );
}

// A keyUsage, a nameConstraints that is neither critical nor has a list, and an issuerAltName
// without names.
static SEVERAL: [u8; 37] = [
    0x30, 0x23, //
    0x30, 0x0B, 0x06, 0x03, 0x55, 0x1D, 0x0F, 0x04, 0x04, 0x03, 0x02, 0x07, 0x80, //
    0x30, 0x09, 0x06, 0x03, 0x55, 0x1D, 0x1E, 0x04, 0x02, 0x30, 0x00, //
    0x30, 0x09, 0x06, 0x03, 0x55, 0x1D, 0x12, 0x04, 0x02, 0x30, 0x00,
];

// The rules come in their order, and each has its first place.
#[test]
fn several_findings_come_in_the_order_of_the_rules(rt: HostRuntime) {
    let several = (
        broken(ExtensionRule::Critical, 1).0,
        broken(ExtensionRule::NotEmpty, 1).0,
        only(
            Rule::Pair(PairRule::NameConstraintsOfAuthority),
            Place::Certificate,
        )
        .0,
    );
    same_at(
        &rt,
        0,
        findings_with_extensions(rt.alloc(), &SEVERAL),
        several,
    );
}

// Whether this is the text of the finding.
fn is_text(alloc: Global, rule: Rule, place: Place, text: &str) -> bool {
    let finding = Finding { rule, place };
    match format!(in alloc; "{finding}") {
        Ok(written) => written.as_str() == text,
        Err(_) => false,
    }
}

#[test]
fn a_finding_is_a_place_and_a_sentence(rt: HostRuntime) {
    let alloc = rt.alloc();
    let serial = "certificate: the serial number is not positive, or has more than 20 octets (RFC \
        5280, 4.1.2.2)";
    holds(
        &rt,
        is_text(alloc, Rule::SerialNumber, Place::Certificate, serial),
    );
    let length = "attribute 1 of level 2: in the name of the issuer, an attribute has fewer or \
        more characters than its type allows (RFC 5280, A.1)";
    let rule = Rule::Issuer(NameRule::Attributes(AttributeRule::Length));
    holds(&rt, is_text(alloc, rule, Place::Attribute(2, 1), length));
    let usage = "extension 3: a keyUsage has no bit that is one (RFC 5280, 4.2.1.3)";
    let rule = Rule::Extension(ExtensionRule::Usage);
    holds(&rt, is_text(alloc, rule, Place::Extension(3), usage));
    let level = "level 0: in the name of the subject, a level has no attribute (RFC 5280, 4.1.2.4)";
    let rule = Rule::Subject(NameRule::Levels);
    holds(&rt, is_text(alloc, rule, Place::Level(0), level));
}
