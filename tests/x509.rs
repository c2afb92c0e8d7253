//! Tests of `x509` over certificates, lists and requests that `openssl` made.

mod assembly;
mod attribute_texts;
pub mod certificates;
mod extension_octets;
mod find_extensions;
mod first_version;
mod general_names;
mod lenient;
mod names;
mod positions;
mod requests;
mod revocation_lists;
mod tags;
