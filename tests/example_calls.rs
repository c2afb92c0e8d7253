//! Tests of the examples of the guide. A user's crate has the modules that are imported here beside
//! the tests, so each test names them by `super`.
use example_calls::{certificate, public_key, version};

mod certificate_tests;
mod public_key_tests;
mod version_tests;
