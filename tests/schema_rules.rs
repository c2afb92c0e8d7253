//! Tests of `schema_rules`: what others say of contents octets, and the examples of X.680 and X.690.

mod examples;
mod judged;
mod rows;
mod values;
