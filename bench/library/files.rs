//! Files that are read, and written back.
use der::{Decode, DecodeBytes, Encode, Error, SliceReader};
use ocsp::{OcspRequest, OcspResponse};
use pkcs1::{RsaPrivateKey, RsaPublicKey};
use pkcs8::{EncryptedPrivateKeyInfo, PrivateKeyInfo};
use sec1::{DssParms, EcParameters, EcPrivateKey};
use spki::SubjectPublicKeyInfoRef;
use std::alloc::Global;
use x509::{CertReq, Certificate, CertificateList};

/// Reads one value from `octets` and writes this value into a new vector. The type of the value
/// depends on `kind`: 0 is a certificate, 1 a public key, 2 a private key, 3 a revocation list, 4 a
/// certification request, 5 and 6 an RSA private and public key, 7 and 8 a private key and the
/// parameters of an elliptic curve, 9 DSA parameters, 10 an encrypted private key, 11 an OCSP
/// request, and any other `kind` is an OCSP response. Returns:
///
/// - 0 if reading fails;
/// - 1 if the octets written equal `octets`;
/// - 2 if writing fails or writes other octets.
#[unsafe(no_mangle)]
pub extern "C" fn der_bench_reads_back(alloc: Global, kind: u8, octets: &[u8]) -> u8 {
    match kind {
        0 => reads_back::<Certificate<'_>>(alloc, octets),
        1 => reads_back::<SubjectPublicKeyInfoRef<'_>>(alloc, octets),
        2 => reads_back::<PrivateKeyInfo<'_>>(alloc, octets),
        3 => reads_back::<CertificateList<'_>>(alloc, octets),
        4 => reads_back::<CertReq<'_>>(alloc, octets),
        5 => reads_back::<RsaPrivateKey<'_>>(alloc, octets),
        6 => reads_back::<RsaPublicKey<'_>>(alloc, octets),
        7 => reads_back::<EcPrivateKey<'_>>(alloc, octets),
        8 => reads_back::<EcParameters<'_>>(alloc, octets),
        9 => reads_back::<DssParms<'_>>(alloc, octets),
        10 => reads_back::<EncryptedPrivateKeyInfo<'_>>(alloc, octets),
        11 => reads_back::<OcspRequest<'_>>(alloc, octets),
        _ => reads_back::<OcspResponse<'_>>(alloc, octets),
    }
}

fn reads_back<'a, T: Decode<SliceReader<'a>, Error = Error> + Encode>(
    alloc: Global,
    octets: &'a [u8],
) -> u8 {
    let Ok(value) = T::from_der(alloc, octets) else {
        return 0;
    };
    match value.to_der(alloc) {
        Ok(written) if written.as_slice() == octets => 1,
        _ => 2,
    }
}
