//! Tests of the elements that `schema_read` reads. `tests/programs/asn1_trees` compares its departures with
//! the compiled types.

mod alphabets;
mod entries;
mod rules;
