//! Tests of `schema_types` over a table of types like those of a certificate, and over one with CHOICEs,
//! both written by hand.

pub mod choices;
mod faults;
mod rows;
mod table;
mod tags;
