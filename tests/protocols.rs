//! Tests of the crates of protocols, with octets that another compiler wrote: `asn1ct` of Erlang, of the values in
//! `tests/trees/`.
mod kerberos_tests;
mod ldap_tests;
mod snmp_tests;
