//! Names that are compared.

mod constraints;
mod general_names;
mod identifiers;
mod names;
mod openssl;
mod subjects;
mod unclear;
