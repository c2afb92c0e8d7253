//! Tests of the crate `x509_build`.

mod certificates;
mod pools;
