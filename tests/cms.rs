//! Tests of `cms` over messages and timestamps that `openssl` made.

mod attributes;
mod authenticated;
mod encrypted;
mod encrypted_octets;
mod enveloped;
mod every_octet;
mod identifiers;
mod originator;
mod pkcs7;
mod reading;
mod refusals;
mod refused_timestamps;
mod signed;
pub mod signed_octets;
mod streamed;
mod streamed_encrypted;
pub mod streamed_octets;
pub mod timestamp_octets;
mod timestamps;
