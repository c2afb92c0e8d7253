//! Tests of the crate `x509_path`.

mod certificates;
mod policies;
mod purposes;
mod signed;
