//! Tests of `pkcs12` over files that `openssl` made.

mod bags;
mod codes;
mod files;
mod identifiers;
mod octets;
mod parts;
mod refusals;
