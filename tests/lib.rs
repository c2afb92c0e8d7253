//! Tests of the libraries, which call them from outside like a user's code. They are run, and not
//! proved.
#![tactic(auto)]

#[cfg(test)]
mod asn1_compile;
#[cfg(test)]
mod ber;
#[cfg(test)]
mod checks;
#[cfg(test)]
mod cms;
#[cfg(test)]
mod der;
#[cfg(test)]
mod der_asn1;
#[cfg(test)]
mod der_base;
#[cfg(test)]
mod der_segments;
#[cfg(test)]
mod der_show;
#[cfg(test)]
mod der_tool;
#[cfg(test)]
mod example_calls;
#[cfg(test)]
mod example_parcels;
#[cfg(test)]
mod fixtures;
#[cfg(test)]
mod ocsp;
#[cfg(test)]
mod path_rules;
#[cfg(test)]
mod path_search;
#[cfg(test)]
mod pem;
#[cfg(test)]
mod pkcs1;
#[cfg(test)]
mod pkcs12;
#[cfg(test)]
mod pkcs8;
#[cfg(test)]
mod protocols;
#[cfg(test)]
mod schema_cursor;
#[cfg(test)]
mod schema_read;
#[cfg(test)]
mod schema_rules;
#[cfg(test)]
mod schema_types;
#[cfg(test)]
mod schema_write;
#[cfg(test)]
mod sec1;
#[cfg(test)]
mod spki;
#[cfg(test)]
mod x509;
#[cfg(test)]
mod x509_build;
#[cfg(test)]
mod x509_lint;
#[cfg(test)]
mod x509_names;
#[cfg(test)]
mod x509_path;
