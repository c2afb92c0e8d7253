//! Tests of `ber` over headers that `openssl asn1parse` shows, and over the examples of X.690.

mod elements;
mod faults;
mod headers;
mod universal;
