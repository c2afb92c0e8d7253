//! The forms of names.

mod comparable;
mod constraints;
mod openssl;
mod syntax;
mod wildcards;
