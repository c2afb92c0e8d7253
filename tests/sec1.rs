//! Tests of `sec1` over keys that `openssl` made.

mod curves;
mod dsa;
mod ec_identifiers;
mod ec_keys;
mod ec_octets;
