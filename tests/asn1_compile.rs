//! Tests of the compiler of ASN.1: modules that are refused, and where; and the text of others.

mod accepted;
mod identifiers;
mod imports;
mod meanings;
mod refused_constraints;
mod refused_names;
mod refused_notation;
mod refused_tags;
mod refused_texts;
mod refusals;
mod selections;
mod warnings;
