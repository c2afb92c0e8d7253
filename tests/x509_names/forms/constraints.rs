//! Names compared with each other and with constraints. The expected answers are those of openssl.
use crate::checks::same_at;
use crate::x509_names::forms::openssl::{ADDRESSES, DNS, MAIL, NAMES, URIS};
use x509_names::{is_address_within, is_below_host, is_mail_within, is_uri_within, texts_match};

#[test]
fn host_names_are_within_constraints_as_openssl_says(rt: HostRuntime) {
    for (row, (base, name, expected)) in DNS.iter().enumerate() {
        same_at(&rt, row, is_below_host(base, name), *expected);
    }
}

#[test]
fn mailboxes_are_within_constraints_as_openssl_says(rt: HostRuntime) {
    for (row, (base, name, expected)) in MAIL.iter().enumerate() {
        same_at(&rt, row, is_mail_within(base, name), *expected);
    }
}

#[test]
fn uris_are_within_constraints_as_openssl_says(rt: HostRuntime) {
    for (row, (base, name, expected)) in URIS.iter().enumerate() {
        same_at(&rt, row, is_uri_within(base, name), *expected);
    }
}

#[test]
fn addresses_are_within_constraints_as_openssl_says(rt: HostRuntime) {
    for (row, (base, name, expected)) in ADDRESSES.iter().enumerate() {
        same_at(&rt, row, is_address_within(base, name), *expected);
    }
}

#[test]
fn texts_match_as_openssl_says(rt: HostRuntime) {
    for (row, (first, second, expected)) in NAMES.iter().enumerate() {
        same_at(&rt, row, texts_match(first, second), *expected);
    }
}
