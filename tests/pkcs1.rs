//! Tests of `pkcs1` over keys that `openssl` made.

mod rsa_identifiers;
mod rsa_keys;
pub mod rsa_octets;
mod rsa_parameter_octets;
mod rsa_parameters;
