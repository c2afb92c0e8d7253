//! Tests of `pkcs8` over keys that `openssl` made.

mod encrypted_keys;
mod encrypted_octets;
mod encryption_identifiers;
mod pbkdf2_params;
mod private_keys;
