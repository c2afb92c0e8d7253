//! Tests of `x509_lint` over certificates that `openssl` made.

mod checks;
mod lint;
