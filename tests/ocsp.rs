//! Tests of `ocsp` over requests and responses that `openssl` made.

mod extension_octets;
mod extensions;
mod identifiers;
mod octets;
mod requests;
mod responses;
mod statuses;
