//! Tests of visits to a museum. A user's crate has the module `asn1` beside the tests, so they name
//! it by `super`.
use example_parcels::visits as asn1;

mod visit_tests;
