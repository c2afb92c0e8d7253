//! The syntax of names. The URIs are those of RFC 3986, 1.1.2, 3 and 3.2.2, and of its grammar; the mailboxes those of RFC
//! 5321, 4.1.2, and RFC 5322, A.1.
use crate::checks::{holds_at, same_at};
use x509_names::{has_host, has_scheme, is_host_name, is_mailbox, is_uri};

static URIS: [&[u8]; 9] = [
    b"ftp://ftp.is.co.za/rfc/rfc1808.txt",
    b"http://www.ietf.org/rfc/rfc2396.txt",
    b"ldap://[2001:db8::7]/c=GB?objectClass?one",
    b"mailto:John.Doe@example.com",
    b"news:comp.infosystems.www.servers.unix",
    b"tel:+1-816-555-1212",
    b"telnet://192.0.2.16:80/",
    b"urn:oasis:names:specification:docbook:dtd:xml:4.1.2",
    b"foo://example.com:8042/over/there?name=ferret#nose",
];

#[test]
fn the_examples_of_the_rfc_are_uris(rt: HostRuntime) {
    for (row, uri) in URIS.iter().enumerate() {
        holds_at(&rt, row, has_scheme(uri) && is_uri(uri) && has_host(uri));
    }
}

// A space, angle brackets, a percent sign without digits, two fragments, a port with a letter, a bracket that is not closed.
static NO_URIS: [&[u8]; 7] = [
    b"http://example.org/a b",
    b"<http://example.org/>",
    b"http://example.org/%4",
    b"http://example.org/%GG",
    b"http://example.org/a#b#c",
    b"http://example.org:8a/",
    b"http://[2001:db8::7/",
];

#[test]
fn octets_outside_of_the_grammar_are_no_uris(rt: HostRuntime) {
    for (row, uri) in NO_URIS.iter().enumerate() {
        holds_at(&rt, row, !is_uri(uri));
    }
}

#[test]
fn an_authority_may_have_no_host(rt: HostRuntime) {
    holds_at(&rt, 0, is_uri(b"file:///etc/hosts") && !has_host(b"file:///etc/hosts"));
    holds_at(&rt, 1, is_uri(b"http://user@/") && !has_host(b"http://user@/"));
}

static MAILBOXES: [(&[u8], bool); 10] = [
    (b"jdoe@machine.example", true),
    (b"mary.smith+tag@example.net", true),
    (b"\"Joe Q. Public\"@example.com", true),
    (b"a@[192.0.2.1]", true),
    (b"Mary Smith <mary@example.net>", false),
    (b"<boss@nil.test>", false),
    (b"pete(his account)@silly.test", false),
    (b".a@example.org", false),
    (b"a..b@example.org", false),
    (b"@example.org", false),
];

#[test]
fn mailboxes_have_no_phrase_and_no_comment(rt: HostRuntime) {
    for (row, (mailbox, expected)) in MAILBOXES.iter().enumerate() {
        same_at(&rt, row, is_mailbox(mailbox), *expected);
    }
}

// A label has 63 octets at most (RFC 1034, 3.1).
#[test]
fn a_label_has_63_octets_at_most(rt: HostRuntime) {
    let long = b"aaaaaaaaaaaaaaaaaaaaaaaaaaaaaaaaaaaaaaaaaaaaaaaaaaaaaaaaaaaaaaaa.example.org";
    holds_at(&rt, 64, !is_host_name(long));
    holds_at(&rt, 63, is_host_name(&long[1..]));
}
