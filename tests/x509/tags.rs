//! The constants of the types of keys and certificates, which no clause can name, and the functions
//! that return the same. The tags are those of the ASN.1 modules.
use crate::checks::holds;
use crate::fixtures::constants::{grammar_tags_agree, tags_agree};
use der::Tag;
use der_asn1::NamedInteger;
use pkcs8::{PrivateKeyAttribute, PrivateKeyAttributes, PrivateKeyInfo};
use spki::{AlgorithmIdentifierRef, SubjectPublicKeyInfoRef};
use x509::{
    Attribute, AttributeTypeAndValue, AttributeValues, CertReq, CertReqInfo, CertReqVersion,
    Certificate, CertificateList, CertificateVersionGrammar, Extension, Extensions, Name,
    RelativeDistinguishedName, RevokedCertificate, TbsCertList, TbsCertificate, Validity,
};

// RFC 5280, 4.1: all SEQUENCEs, except a version.
#[test]
fn types_of_certificates_report_equal_tags(rt: HostRuntime) {
    holds(&rt, tags_agree::<Certificate>(Tag::Sequence, true));
    holds(&rt, tags_agree::<TbsCertificate>(Tag::Sequence, true));
    holds(&rt, tags_agree::<Validity>(Tag::Sequence, true));
    holds(&rt, tags_agree::<Extensions>(Tag::Sequence, true));
    holds(&rt, tags_agree::<Extension>(Tag::Sequence, true));
    holds(&rt, tags_agree::<x509::Version>(Tag::Integer, false));
    holds(&rt, grammar_tags_agree::<CertificateVersionGrammar>(Tag::Integer));
}

// RFC 5280, 5.1.
#[test]
fn types_of_revocation_lists_report_equal_tags(rt: HostRuntime) {
    holds(&rt, tags_agree::<CertificateList>(Tag::Sequence, true));
    holds(&rt, tags_agree::<TbsCertList>(Tag::Sequence, true));
    holds(&rt, tags_agree::<RevokedCertificate>(Tag::Sequence, true));
}

// RFC 5280, 4.1.2.4: a name is a SEQUENCE of SETs of SEQUENCEs.
#[test]
fn types_of_names_report_equal_tags(rt: HostRuntime) {
    holds(&rt, tags_agree::<Name>(Tag::Sequence, true));
    holds(&rt, tags_agree::<RelativeDistinguishedName>(Tag::Set, true));
    holds(&rt, tags_agree::<AttributeTypeAndValue>(Tag::Sequence, true));
}

// RFC 2986, 4.
#[test]
fn types_of_requests_report_equal_tags(rt: HostRuntime) {
    holds(&rt, tags_agree::<CertReq>(Tag::Sequence, true));
    holds(&rt, tags_agree::<CertReqInfo>(Tag::Sequence, true));
    holds(&rt, tags_agree::<NamedInteger<CertReqVersion>>(Tag::Integer, false));
    holds(&rt, tags_agree::<Attribute>(Tag::Sequence, true));
    holds(&rt, tags_agree::<AttributeValues>(Tag::Set, true));
}

// RFC 5280, 4.1.1.2 and 4.1.2.7; RFC 5958, 2, whose attributes are tagged IMPLICIT where they occur.
#[test]
fn types_of_keys_report_equal_tags(rt: HostRuntime) {
    holds(&rt, tags_agree::<AlgorithmIdentifierRef>(Tag::Sequence, true));
    holds(&rt, tags_agree::<SubjectPublicKeyInfoRef>(Tag::Sequence, true));
    holds(&rt, tags_agree::<PrivateKeyInfo>(Tag::Sequence, true));
    holds(&rt, tags_agree::<NamedInteger<pkcs8::Version>>(Tag::Integer, false));
    holds(&rt, tags_agree::<PrivateKeyAttributes>(Tag::Set, true));
    holds(&rt, tags_agree::<PrivateKeyAttribute>(Tag::Sequence, true));
}
