//! Tests of `spki` over public keys that `openssl` made.

mod public_keys;
