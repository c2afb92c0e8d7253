//! Revocation lists, decoded, with their entries.
use crate::Totals;
use der::DecodeBytes;
use std::alloc::Global;
use x509::CertificateList;

/// Decodes the revocation list in `bytes`, and then iterates over its entries. In the result,
/// `elements` is the number of entries, `contents` is the total number of contents octets of their
/// serial numbers, and `octet_sum` is the sum of the first contents octets of these. All are 0 if
/// there is an error.
#[unsafe(no_mangle)]
pub extern "C" fn der_bench_revocation_list(alloc: Global, bytes: &[u8]) -> Totals {
    let mut totals = Totals::none();
    let Ok(list) = CertificateList::from_der(alloc, bytes) else {
        return totals;
    };
    let Some(entries) = list.tbs_cert_list.revoked_certificates.0 else {
        return totals;
    };
    for entry in entries.iter(alloc) {
        let octets = entry.user_certificate.octets();
        totals.pass(octets.len(), octets.first().copied().unwrap_or(0) as u64);
    }
    totals
}
