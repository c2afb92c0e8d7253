//! Tests of `der_asn1`, from outside the library like a user's code: forms of contents, fields,
//! tags, lists and times.

mod alphabets;
mod arcs;
mod choices;
mod comparisons;
mod constants;
mod containing;
mod decode_as;
mod default_encodings;
mod default_values;
mod defaults;
mod enumerations;
mod fields;
mod forms;
mod known_values;
mod lists;
mod named_bits;
mod numbers;
mod printed;
mod ranges;
mod segments;
mod sets;
mod tag_classes;
mod tags;
mod texts;
mod times;
mod walks;
