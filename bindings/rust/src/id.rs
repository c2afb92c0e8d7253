//! OBJECT IDENTIFIERs of attributes of names, extensions, algorithms and key purposes, as `der.h` has them.
//!
//! Written by tools/c_interface from der.h.
use crate::oid::Oid;

// Types of attributes of names (RFC 5280, appendix A.1; RFC 4519).
/// `2.5.4.3`.
pub const COMMON_NAME: Oid<'static> = Oid {
    contents: &[0x55, 0x04, 0x03],
};
/// `2.5.4.5`.
pub const SERIAL_NUMBER: Oid<'static> = Oid {
    contents: &[0x55, 0x04, 0x05],
};
/// `2.5.4.6`.
pub const COUNTRY_NAME: Oid<'static> = Oid {
    contents: &[0x55, 0x04, 0x06],
};
/// `2.5.4.7`.
pub const LOCALITY_NAME: Oid<'static> = Oid {
    contents: &[0x55, 0x04, 0x07],
};
/// `2.5.4.8`.
pub const STATE_OR_PROVINCE_NAME: Oid<'static> = Oid {
    contents: &[0x55, 0x04, 0x08],
};
/// `2.5.4.10`.
pub const ORGANIZATION_NAME: Oid<'static> = Oid {
    contents: &[0x55, 0x04, 0x0A],
};
/// `2.5.4.11`.
pub const ORGANIZATIONAL_UNIT_NAME: Oid<'static> = Oid {
    contents: &[0x55, 0x04, 0x0B],
};
/// `1.2.840.113549.1.9.1`.
pub const EMAIL_ADDRESS: Oid<'static> = Oid {
    contents: &[0x2A, 0x86, 0x48, 0x86, 0xF7, 0x0D, 0x01, 0x09, 0x01],
};
/// `0.9.2342.19200300.100.1.25`.
pub const DOMAIN_COMPONENT: Oid<'static> = Oid {
    contents: &[0x09, 0x92, 0x26, 0x89, 0x93, 0xF2, 0x2C, 0x64, 0x01, 0x19],
};

// Extensions (RFC 5280, 4.2).
/// `2.5.29.14`.
pub const SUBJECT_KEY_IDENTIFIER: Oid<'static> = Oid {
    contents: &[0x55, 0x1D, 0x0E],
};
/// `2.5.29.15`.
pub const KEY_USAGE: Oid<'static> = Oid {
    contents: &[0x55, 0x1D, 0x0F],
};
/// `2.5.29.17`.
pub const SUBJECT_ALTERNATIVE_NAME: Oid<'static> = Oid {
    contents: &[0x55, 0x1D, 0x11],
};
/// `2.5.29.19`.
pub const BASIC_CONSTRAINTS: Oid<'static> = Oid {
    contents: &[0x55, 0x1D, 0x13],
};
/// `2.5.29.31`.
pub const CRL_DISTRIBUTION_POINTS: Oid<'static> = Oid {
    contents: &[0x55, 0x1D, 0x1F],
};
/// `2.5.29.32`.
pub const CERTIFICATE_POLICIES: Oid<'static> = Oid {
    contents: &[0x55, 0x1D, 0x20],
};
/// `2.5.29.35`.
pub const AUTHORITY_KEY_IDENTIFIER: Oid<'static> = Oid {
    contents: &[0x55, 0x1D, 0x23],
};
/// `2.5.29.37`.
pub const EXTENDED_KEY_USAGE: Oid<'static> = Oid {
    contents: &[0x55, 0x1D, 0x25],
};
/// `1.3.6.1.5.5.7.1.1`.
pub const AUTHORITY_INFORMATION_ACCESS: Oid<'static> = Oid {
    contents: &[0x2B, 0x06, 0x01, 0x05, 0x05, 0x07, 0x01, 0x01],
};

// Algorithms of keys and of signatures (RFC 4055, 5480, 5758 and 8410). Those with RSA in their name have
// NULL parameters. Those of ECDSA, and Ed25519, have none. DER_ID_EC_PUBLIC_KEY has a curve, which
// |der_write_algorithm| cannot write.
/// `1.2.840.113549.1.1.1`.
pub const RSA_ENCRYPTION: Oid<'static> = Oid {
    contents: &[0x2A, 0x86, 0x48, 0x86, 0xF7, 0x0D, 0x01, 0x01, 0x01],
};
/// `1.2.840.113549.1.1.11`.
pub const SHA256_WITH_RSA: Oid<'static> = Oid {
    contents: &[0x2A, 0x86, 0x48, 0x86, 0xF7, 0x0D, 0x01, 0x01, 0x0B],
};
/// `1.2.840.113549.1.1.12`.
pub const SHA384_WITH_RSA: Oid<'static> = Oid {
    contents: &[0x2A, 0x86, 0x48, 0x86, 0xF7, 0x0D, 0x01, 0x01, 0x0C],
};
/// `1.2.840.113549.1.1.13`.
pub const SHA512_WITH_RSA: Oid<'static> = Oid {
    contents: &[0x2A, 0x86, 0x48, 0x86, 0xF7, 0x0D, 0x01, 0x01, 0x0D],
};
/// `1.2.840.10045.2.1`.
pub const EC_PUBLIC_KEY: Oid<'static> = Oid {
    contents: &[0x2A, 0x86, 0x48, 0xCE, 0x3D, 0x02, 0x01],
};
/// `1.2.840.10045.4.3.2`.
pub const ECDSA_WITH_SHA256: Oid<'static> = Oid {
    contents: &[0x2A, 0x86, 0x48, 0xCE, 0x3D, 0x04, 0x03, 0x02],
};
/// `1.2.840.10045.4.3.3`.
pub const ECDSA_WITH_SHA384: Oid<'static> = Oid {
    contents: &[0x2A, 0x86, 0x48, 0xCE, 0x3D, 0x04, 0x03, 0x03],
};
/// `1.2.840.10045.4.3.4`.
pub const ECDSA_WITH_SHA512: Oid<'static> = Oid {
    contents: &[0x2A, 0x86, 0x48, 0xCE, 0x3D, 0x04, 0x03, 0x04],
};
/// `1.3.101.112`.
pub const ED25519: Oid<'static> = Oid {
    contents: &[0x2B, 0x65, 0x70],
};

// Key purposes, for an extKeyUsage (RFC 5280, 4.2.1.12).
/// `1.3.6.1.5.5.7.3.1`.
pub const SERVER_AUTH: Oid<'static> = Oid {
    contents: &[0x2B, 0x06, 0x01, 0x05, 0x05, 0x07, 0x03, 0x01],
};
/// `1.3.6.1.5.5.7.3.2`.
pub const CLIENT_AUTH: Oid<'static> = Oid {
    contents: &[0x2B, 0x06, 0x01, 0x05, 0x05, 0x07, 0x03, 0x02],
};
/// `1.3.6.1.5.5.7.3.3`.
pub const CODE_SIGNING: Oid<'static> = Oid {
    contents: &[0x2B, 0x06, 0x01, 0x05, 0x05, 0x07, 0x03, 0x03],
};
/// `1.3.6.1.5.5.7.3.4`.
pub const EMAIL_PROTECTION: Oid<'static> = Oid {
    contents: &[0x2B, 0x06, 0x01, 0x05, 0x05, 0x07, 0x03, 0x04],
};
/// `1.3.6.1.5.5.7.3.8`.
pub const TIME_STAMPING: Oid<'static> = Oid {
    contents: &[0x2B, 0x06, 0x01, 0x05, 0x05, 0x07, 0x03, 0x08],
};
/// `1.3.6.1.5.5.7.3.9`.
pub const OCSP_SIGNING: Oid<'static> = Oid {
    contents: &[0x2B, 0x06, 0x01, 0x05, 0x05, 0x07, 0x03, 0x09],
};
