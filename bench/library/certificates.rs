//! Certificates, decoded.
use crate::Totals;
use crate::decode::{Counted, decode_each};
use der::{DecodeBytes, EncodingRules};
use std::alloc::Global;
use x509::{Certificate, ext};

impl<'a> Counted for Certificate<'a> {
    #[inline(always)]
    fn contents(&self) -> usize {
        self.signature.octets().len()
    }

    #[inline(always)]
    fn first_octet(&self) -> u8 {
        self.tbs_certificate
            .serial_number
            .octets()
            .first()
            .copied()
            .unwrap_or(0)
    }
}

/// Decodes the certificates in `bytes`, one after the other, until the octets end or there is an
/// error. In the result, `elements` is the number of certificates, `contents` is the total number
/// of contents octets of their signatures, and `octet_sum` is the sum of the first contents octets
/// of their serial numbers.
#[unsafe(no_mangle)]
pub extern "C" fn der_bench_certificates(alloc: Global, bytes: &[u8]) -> Totals {
    decode_each::<Certificate<'_>>(alloc, bytes, EncodingRules::Der)
}

/// Decodes the certificates in `bytes`, one after the other, and finds and decodes the
/// subjectAltName of each. In the result, `elements` is the number of certificates, `contents` is
/// the total number of octets of their DNS names, and `octet_sum` is the number of these names. It
/// ends if there is an error.
#[unsafe(no_mangle)]
pub extern "C" fn der_bench_dns_names(alloc: Global, bytes: &[u8]) -> Totals {
    let mut totals = Totals::none();
    let mut left = bytes;
    for _ in 0..bytes.len() {
        let Ok((certificate, rest)) = Certificate::from_der_partial(alloc, left) else {
            return totals;
        };
        totals.elements = totals.elements.wrapping_add(1);
        count_dns_names(alloc, &certificate, &mut totals);
        left = rest;
    }
    totals
}

fn count_dns_names(alloc: Global, certificate: &Certificate<'_>, totals: &mut Totals) {
    let tbs = &certificate.tbs_certificate;
    let Ok(Some(found)) = tbs.find_extension::<ext::SubjectAltName>(alloc) else {
        return;
    };
    for name in found.value.iter(alloc) {
        if let Some(host) = name.dns_name() {
            totals.contents = totals.contents.wrapping_add(host.octets().len() as u64);
            totals.octet_sum = totals.octet_sum.wrapping_add(1);
        }
    }
}
