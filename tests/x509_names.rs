//! Tests of the crate `x509_names`.

mod forms;
mod matching;
mod text;
