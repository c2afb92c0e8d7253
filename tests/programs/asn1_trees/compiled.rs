//! Compiled types.

use der::{Decode, DecodeBytes, Error, SliceReader};
use std::alloc::Global;

/// The error of decoding octets by the compiled type of this name, `Some(None)` if they are its value.
/// `None` if no type has this name.
pub fn error_of(alloc: Global, kind: &str, octets: &[u8]) -> Option<Option<Error>> {
    certificates(alloc, kind, octets)
        .or(qualifiers(alloc, kind, octets))
        .or(public_keys(alloc, kind, octets))
        .or(private_keys(alloc, kind, octets))
        .or(rsa(alloc, kind, octets))
        .or(curves(alloc, kind, octets))
        .or(messages(alloc, kind, octets))
        .or(files(alloc, kind, octets))
        .or(answers(alloc, kind, octets))
        .or(visits(alloc, kind, octets))
        .or(parcels(alloc, kind, octets))
}

fn of<'a, T: Decode<SliceReader<'a>, Error = Error>>(
    alloc: Global,
    octets: &'a [u8],
) -> Option<Error> {
    match T::from_der(alloc, octets) {
        Ok(_) => None,
        Err(error) => Some(error),
    }
}

// The error of a type of the module X509.
fn certificates(alloc: Global, kind: &str, octets: &[u8]) -> Option<Option<Error>> {
    Some(match kind {
        "Certificate" => of::<x509::Certificate<'_>>(alloc, octets),
        "CertificationRequest" => of::<x509::CertReq<'_>>(alloc, octets),
        "CertificateList" => of::<x509::CertificateList<'_>>(alloc, octets),
        "SubjectDirectoryAttributes" => of::<x509::SubjectDirectoryAttributes<'_>>(alloc, octets),
        "SubjectKeyIdentifier" => of::<x509::SubjectKeyIdentifier<'_>>(alloc, octets),
        "KeyUsage" => of::<x509::KeyUsage<'_>>(alloc, octets),
        "SubjectAltName" => of::<x509::SubjectAltName<'_>>(alloc, octets),
        "IssuerAltName" => of::<x509::IssuerAltName<'_>>(alloc, octets),
        "BasicConstraints" => of::<x509::BasicConstraints<'_>>(alloc, octets),
        "CRLNumber" => of::<x509::CrlNumber<'_>>(alloc, octets),
        "CRLReason" => of::<der_asn1::Enumerated<x509::CrlReason>>(alloc, octets),
        "InvalidityDate" => of::<x509::InvalidityDate>(alloc, octets),
        "BaseCRLNumber" => of::<x509::BaseCrlNumber<'_>>(alloc, octets),
        "IssuingDistributionPoint" => of::<x509::IssuingDistributionPoint<'_>>(alloc, octets),
        "CertificateIssuer" => of::<x509::CertificateIssuer<'_>>(alloc, octets),
        "NameConstraints" => of::<x509::NameConstraints<'_>>(alloc, octets),
        "CRLDistributionPoints" => of::<x509::CrlDistributionPoints<'_>>(alloc, octets),
        "CertificatePolicies" => of::<x509::CertificatePolicies<'_>>(alloc, octets),
        "PolicyMappings" => of::<x509::PolicyMappings<'_>>(alloc, octets),
        "AuthorityKeyIdentifier" => of::<x509::AuthorityKeyIdentifier<'_>>(alloc, octets),
        "PolicyConstraints" => of::<x509::PolicyConstraints<'_>>(alloc, octets),
        "ExtKeyUsageSyntax" => of::<x509::ExtKeyUsageSyntax<'_>>(alloc, octets),
        "FreshestCRL" => of::<x509::FreshestCrl<'_>>(alloc, octets),
        "InhibitAnyPolicy" => of::<x509::InhibitAnyPolicy<'_>>(alloc, octets),
        "AuthorityInfoAccessSyntax" => of::<x509::AuthorityInfoAccessSyntax<'_>>(alloc, octets),
        "SubjectInfoAccessSyntax" => of::<x509::SubjectInfoAccessSyntax<'_>>(alloc, octets),
        "SignedCertificateTimestampList" => of::<x509::SignedCertificateTimestampList<'_>>(
            alloc, octets,
        ),
        "ExtensionRequest" => of::<x509::ExtensionRequest<'_>>(alloc, octets),
        _ => return None,
    })
}

// The error of a type of the module X509.
fn qualifiers(alloc: Global, kind: &str, octets: &[u8]) -> Option<Option<Error>> {
    Some(match kind {
        "CPSuri" => of::<x509::CpsUri<'_>>(alloc, octets),
        "UserNotice" => of::<x509::UserNotice<'_>>(alloc, octets),
        _ => return None,
    })
}

// The error of a type of the module PublicKeyInfo.
fn public_keys(alloc: Global, kind: &str, octets: &[u8]) -> Option<Option<Error>> {
    Some(match kind {
        "SubjectPublicKeyInfo" => of::<spki::SubjectPublicKeyInfoRef<'_>>(alloc, octets),
        "AlgorithmIdentifier" => of::<spki::AlgorithmIdentifierRef<'_>>(alloc, octets),
        _ => return None,
    })
}

// The error of a type of the module PrivateKeys.
fn private_keys(alloc: Global, kind: &str, octets: &[u8]) -> Option<Option<Error>> {
    Some(match kind {
        "PrivateKeyInfo" => of::<pkcs8::PrivateKeyInfo<'_>>(alloc, octets),
        "EncryptedPrivateKeyInfo" => of::<pkcs8::EncryptedPrivateKeyInfo<'_>>(alloc, octets),
        "PBKDF2-params" => of::<pkcs8::Pbkdf2Params<'_>>(alloc, octets),
        "PBES2-params" => of::<pkcs8::Pbes2Params<'_>>(alloc, octets),
        "Scrypt-params" => of::<pkcs8::ScryptParams<'_>>(alloc, octets),
        "PBEParameter" => of::<pkcs8::PbeParameter<'_>>(alloc, octets),
        _ => return None,
    })
}

// The error of a type of the module PKCS-1.
fn rsa(alloc: Global, kind: &str, octets: &[u8]) -> Option<Option<Error>> {
    Some(match kind {
        "RSAPrivateKey" => of::<pkcs1::RsaPrivateKey<'_>>(alloc, octets),
        "RSAPublicKey" => of::<pkcs1::RsaPublicKey<'_>>(alloc, octets),
        "RSAES-OAEP-params" => of::<pkcs1::RsaOaepParams<'_>>(alloc, octets),
        "RSASSA-PSS-params" => of::<pkcs1::RsaPssParams<'_>>(alloc, octets),
        _ => return None,
    })
}

// The error of a type of the module SEC1.
fn curves(alloc: Global, kind: &str, octets: &[u8]) -> Option<Option<Error>> {
    Some(match kind {
        "ECPrivateKey" => of::<sec1::EcPrivateKey<'_>>(alloc, octets),
        "ECParameters" => of::<sec1::EcParameters<'_>>(alloc, octets),
        "Dss-Parms" => of::<sec1::DssParms<'_>>(alloc, octets),
        _ => return None,
    })
}

// The error of a type of the module CMS.
fn messages(alloc: Global, kind: &str, octets: &[u8]) -> Option<Option<Error>> {
    Some(match kind {
        "ContentInfo" => of::<cms::ContentInfo<'_>>(alloc, octets),
        "TimeStampReq" => of::<cms::TimeStampReq<'_>>(alloc, octets),
        "TimeStampResp" => of::<cms::TimeStampResp<'_>>(alloc, octets),
        "SignedData" => of::<cms::SignedData<'_>>(alloc, octets),
        "EnvelopedData" => of::<cms::EnvelopedData<'_>>(alloc, octets),
        "DigestedData" => of::<cms::DigestedData<'_>>(alloc, octets),
        "EncryptedData" => of::<cms::EncryptedData<'_>>(alloc, octets),
        "AuthenticatedData" => of::<cms::AuthenticatedData<'_>>(alloc, octets),
        "CompressedData" => of::<cms::CompressedData<'_>>(alloc, octets),
        "AuthEnvelopedData" => of::<cms::AuthEnvelopedData<'_>>(alloc, octets),
        "MessageDigest" => of::<cms::MessageDigest<'_>>(alloc, octets),
        "SigningTime" => of::<cms::SigningTime>(alloc, octets),
        "Countersignature" => of::<cms::Countersignature<'_>>(alloc, octets),
        "SigningCertificate" => of::<cms::SigningCertificate<'_>>(alloc, octets),
        "TimeStampToken" => of::<cms::TimeStampToken<'_>>(alloc, octets),
        "SigningCertificateV2" => of::<cms::SigningCertificateV2<'_>>(alloc, octets),
        "TSTInfo" => of::<cms::TstInfo<'_>>(alloc, octets),
        _ => return None,
    })
}

// The error of a type of the module PKCS-12.
fn files(alloc: Global, kind: &str, octets: &[u8]) -> Option<Option<Error>> {
    Some(match kind {
        "PFX" => of::<pkcs12::Pfx<'_>>(alloc, octets),
        "FriendlyName" => of::<pkcs12::FriendlyName<'_>>(alloc, octets),
        "LocalKeyId" => of::<pkcs12::LocalKeyId<'_>>(alloc, octets),
        "Pkcs-12PbeParams" => of::<pkcs12::Pkcs12PbeParams<'_>>(alloc, octets),
        "KeyBag" => of::<pkcs12::KeyBag<'_>>(alloc, octets),
        "PKCS8ShroudedKeyBag" => of::<pkcs12::Pkcs8ShroudedKeyBag<'_>>(alloc, octets),
        "CertBag" => of::<pkcs12::CertBag<'_>>(alloc, octets),
        "CRLBag" => of::<pkcs12::CrlBag<'_>>(alloc, octets),
        "SecretBag" => of::<pkcs12::SecretBag<'_>>(alloc, octets),
        "SafeContents" => of::<pkcs12::SafeContents<'_>>(alloc, octets),
        "AuthenticatedSafe" => of::<pkcs12::AuthenticatedSafe<'_>>(alloc, octets),
        _ => return None,
    })
}

// The error of a type of the module OCSP.
fn answers(alloc: Global, kind: &str, octets: &[u8]) -> Option<Option<Error>> {
    Some(match kind {
        "OCSPRequest" => of::<ocsp::OcspRequest<'_>>(alloc, octets),
        "OCSPResponse" => of::<ocsp::OcspResponse<'_>>(alloc, octets),
        "Nonce" => of::<ocsp::Nonce<'_>>(alloc, octets),
        "CrlID" => of::<ocsp::CrlId<'_>>(alloc, octets),
        "AcceptableResponses" => of::<ocsp::AcceptableResponses<'_>>(alloc, octets),
        "ArchiveCutoff" => of::<ocsp::ArchiveCutoff>(alloc, octets),
        "ServiceLocator" => of::<ocsp::ServiceLocator<'_>>(alloc, octets),
        "PreferredSignatureAlgorithms" => of::<ocsp::PreferredSignatureAlgorithms<'_>>(
            alloc, octets,
        ),
        "BasicOCSPResponse" => of::<ocsp::BasicOcspResponse<'_>>(alloc, octets),
        _ => return None,
    })
}

// The error of a type of the module Visits.
fn visits(alloc: Global, kind: &str, octets: &[u8]) -> Option<Option<Error>> {
    Some(match kind {
        "Visit" => of::<example_parcels::visits::Visit<'_>>(alloc, octets),
        _ => return None,
    })
}

// The error of a type of the module Parcels.
fn parcels(alloc: Global, kind: &str, octets: &[u8]) -> Option<Option<Error>> {
    Some(match kind {
        "Parcel" => of::<example_parcels::Parcel<'_>>(alloc, octets),
        "Label" => of::<example_parcels::Label<'_>>(alloc, octets),
        "Plan" => of::<example_parcels::Plan<'_>>(alloc, octets),
        _ => return None,
    })
}
