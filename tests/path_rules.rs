//! Tests of the crate `path_rules`.

mod paths;
mod pkits;
mod policies;
mod rooms;
mod texts;
mod trees;
