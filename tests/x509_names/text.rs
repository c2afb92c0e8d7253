//! Names as text.

mod general_names;
mod hidden;
mod names;
