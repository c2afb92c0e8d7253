//! Extensions of known types that are found, and written back.
use crate::Totals;
use der::{DecodeBytes, DecodeValue, Encode, Error, SliceReader};
use std::alloc::Global;
use x509::{Certificate, CertificateList, Extensions, KnownExtension, Occurrence, ext};

/// Finds each extension of a known type in the certificate or, if `is_list` is 1, in the revocation
/// list in `octets`, and writes its value. In the result, `elements` is the number of extensions
/// that are written to the octets that they had, `contents` is the number of those that occur twice,
/// are refused or are written to other octets, and `octet_sum` is 0. All are 0 if reading fails or if
/// there are no extensions.
#[unsafe(no_mangle)]
pub extern "C" fn der_bench_extensions(alloc: Global, is_list: u8, octets: &[u8]) -> Totals {
    let mut totals = Totals::none();
    if is_list == 1 {
        if let Ok(list) = CertificateList::from_der(alloc, octets)
            && let Some(extensions) = &list.tbs_cert_list.crl_extensions.0
        {
            of_list(alloc, &extensions.0, &mut totals);
        }
    } else if let Ok(certificate) = Certificate::from_der(alloc, octets)
        && let Some(extensions) = &certificate.tbs_certificate.extensions.0
    {
        of_certificate(alloc, &extensions.0, &mut totals);
    }
    totals
}

fn of_certificate(alloc: Global, extensions: &Extensions<'_>, totals: &mut Totals) {
    pass::<ext::AuthorityKeyIdentifier>(alloc, extensions, totals);
    pass::<ext::SubjectKeyIdentifier>(alloc, extensions, totals);
    pass::<ext::KeyUsage>(alloc, extensions, totals);
    pass::<ext::CertificatePolicies>(alloc, extensions, totals);
    pass::<ext::PolicyMappings>(alloc, extensions, totals);
    pass::<ext::SubjectAltName>(alloc, extensions, totals);
    pass::<ext::IssuerAltName>(alloc, extensions, totals);
    pass::<ext::SubjectDirectoryAttributes>(alloc, extensions, totals);
    pass::<ext::BasicConstraints>(alloc, extensions, totals);
    pass::<ext::NameConstraints>(alloc, extensions, totals);
    pass::<ext::PolicyConstraints>(alloc, extensions, totals);
    pass::<ext::ExtKeyUsage>(alloc, extensions, totals);
    pass::<ext::CrlDistributionPoints>(alloc, extensions, totals);
    pass::<ext::InhibitAnyPolicy>(alloc, extensions, totals);
    pass::<ext::FreshestCrl>(alloc, extensions, totals);
    pass::<ext::AuthorityInfoAccess>(alloc, extensions, totals);
    pass::<ext::SubjectInfoAccess>(alloc, extensions, totals);
    pass::<ext::SignedCertificateTimestamps>(alloc, extensions, totals);
}

fn of_list(alloc: Global, extensions: &Extensions<'_>, totals: &mut Totals) {
    pass::<ext::AuthorityKeyIdentifier>(alloc, extensions, totals);
    pass::<ext::IssuerAltName>(alloc, extensions, totals);
    pass::<ext::CrlNumber>(alloc, extensions, totals);
    pass::<ext::DeltaCrlIndicator>(alloc, extensions, totals);
    pass::<ext::IssuingDistributionPoint>(alloc, extensions, totals);
    pass::<ext::FreshestCrl>(alloc, extensions, totals);
    pass::<ext::AuthorityInfoAccess>(alloc, extensions, totals);
}

// Counts the extension of type `K`, if there is one.
fn pass<'a, K: KnownExtension<'a>>(alloc: Global, extensions: &Extensions<'a>, totals: &mut Totals)
where
    K::Value: DecodeValue<SliceReader<'a>, Error = Error>,
{
    let octets = match extensions.get(alloc, &K::identifier()) {
        Occurrence::Absent => return,
        Occurrence::Once(extension) => Some(extension.extn_value.octets()),
        Occurrence::Several => None,
    };
    let is_same = match (octets, extensions.find::<K>(alloc)) {
        (Some(octets), Ok(Some(found))) => match found.value.to_der(alloc) {
            Ok(written) => written.as_slice() == octets,
            Err(_) => false,
        },
        _ => false,
    };
    if is_same {
        totals.elements = totals.elements.wrapping_add(1);
    } else {
        totals.contents = totals.contents.wrapping_add(1);
    }
}
