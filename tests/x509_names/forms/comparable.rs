//! Names and constraints that can be compared. The expected answers follow from RFC 5280, 4.2.1.10, whose examples are among them.
use crate::checks::same_at;
use x509_names::{
    is_cidr_range, is_host_constraint, is_host_mailbox, is_host_or_domain, is_host_uri,
    is_mail_constraint, is_plain_host, is_plain_text, is_uri_constraint, is_utf8_host_mailbox,
};

// Octets, and whether they are the constraint of a dNSName, of an rfc822Name and of a URI: "any DNS name that can be constructed by simply adding
// zero or more labels"; "a particular mailbox, all addresses at a particular host, or all mailboxes in a domain"; "a host or a domain".
static CONSTRAINTS: [(&[u8], bool, bool, bool); 11] = [
    (b"host.example.com", true, true, true),
    (b".example.com", true, true, true),
    (b"root@example.com", false, true, false),
    (b"", true, false, false),
    (b".", false, false, false),
    (b"@example.com", false, false, false),
    (b"root@.example.com", false, false, false),
    (b"*.example.com", false, false, false),
    (b"https://example.com", false, false, false),
    (b"example.com.", false, false, false),
    (b"192.0.2.1", true, true, false),
];

#[test]
fn constraints_have_the_syntax_of_their_form(rt: HostRuntime) {
    for (row, (octets, host, mail, uri)) in CONSTRAINTS.iter().enumerate() {
        same_at(&rt, row, is_host_constraint(octets), *host);
        same_at(&rt, row, is_mail_constraint(octets), *mail);
        same_at(&rt, row, is_uri_constraint(octets), *uri);
    }
    same_at(&rt, 11, is_plain_host(b"*.example.com"), false);
    same_at(&rt, 12, is_plain_host(b"www.example.com"), true);
    same_at(&rt, 13, is_host_or_domain(b"root@example.com"), false);
    same_at(&rt, 14, is_host_or_domain(b".example.com"), true);
}

// "Local-part @ ( Domain / address-literal )", whose local part is a Dot-string or a Quoted-string (RFC 5321, 4.1.2).
static MAILBOXES: [(&[u8], bool); 6] = [
    (b"mary.smith+tag@example.net", true),
    (b"a@b@example.net", false),
    (b"\"a@b\"@example.net", false),
    (b"a@[192.0.2.1]", false),
    (b"a@example.net.", false),
    (b"example.net", false),
];

#[test]
fn mailboxes_have_one_at_and_a_host(rt: HostRuntime) {
    for (row, (octets, expected)) in MAILBOXES.iter().enumerate() {
        same_at(&rt, row, is_host_mailbox(octets), *expected);
    }
}

// "Mailbox" of RFC 6531, 3.3, whose atoms have characters beyond ASCII, with "all domain labels .. encoded as LDH-labels" (RFC 9598, 3).
static UTF8_MAILBOXES: [(&[u8], bool); 9] = [
    (&[0xC3, 0xA4, 0x40, 0x61, 0x2E, 0x65, 0x78], true), // an a with two dots, @a.ex
    (&[0x62, 0x2E, 0xE8, 0x80, 0x81, 0x40, 0x61, 0x2E, 0x65, 0x78], true), // b, a dot, U+8001, @a.ex
    (b"a@a.ex", true),
    (&[0xC3, 0x40, 0x61, 0x2E, 0x65, 0x78], false), // half a character
    (&[0xC1, 0x80, 0x40, 0x61, 0x2E, 0x65, 0x78], false), // an @ in two octets
    (&[0xC3, 0xA4, 0x40, 0xC3, 0xA4, 0x2E, 0x65, 0x78], false), // a U-label
    (&[0xC3, 0xA4, 0x40, 0x62, 0x40, 0x61, 0x2E, 0x65, 0x78], false), // two @
    (&[0x2E, 0xC3, 0xA4, 0x40, 0x61, 0x2E, 0x65, 0x78], false), // a dot at the front
    (&[0x40, 0x61, 0x2E, 0x65, 0x78], false), // no local part
];

#[test]
fn mailboxes_in_utf8_have_one_at_and_a_host(rt: HostRuntime) {
    for (row, (octets, expected)) in UTF8_MAILBOXES.iter().enumerate() {
        same_at(&rt, row, is_utf8_host_mailbox(octets), *expected);
    }
}

// URIs of RFC 3986, 1.1.2, and others of its grammar.
static URIS: [(&[u8], bool); 7] = [
    (b"http://www.ietf.org/rfc/rfc2396.txt", true),
    (b"foo://user@example.com:8042/over/there?name=ferret#nose", true),
    (b"ldap://[2001:db8::7]/c=GB?objectClass?one", false),
    (b"telnet://192.0.2.16:80/", false),
    (b"urn:oasis:names:specification:docbook:dtd:xml:4.1.2", false),
    (b"http://example.com./", false),
    (b"http://evil.example\\@good.example/", false),
];

#[test]
fn uris_have_a_host_name(rt: HostRuntime) {
    for (row, (octets, expected)) in URIS.iter().enumerate() {
        same_at(&rt, row, is_host_uri(octets), *expected);
    }
}

// Ranges "in the style of RFC 4632 (CIDR)". The first is the example of RFC 5280, the second has all addresses, the third one.
static RANGES: [(&[u8], bool); 7] = [
    (&[192, 0, 2, 0, 255, 255, 255, 0], true),
    (&[0, 0, 0, 0, 0, 0, 0, 0], true),
    (&[192, 0, 2, 1, 255, 255, 255, 255], true),
    (&[192, 0, 2, 0, 255, 255, 254, 0], true),
    (&[192, 0, 2, 0, 255, 0, 255, 0], false),
    (&[192, 0, 2, 0, 255, 255, 253, 0], false),
    (&[192, 0, 2, 0, 255, 255, 255], false),
];

#[test]
fn masks_have_no_one_after_a_zero(rt: HostRuntime) {
    for (row, (octets, expected)) in RANGES.iter().enumerate() {
        same_at(&rt, row, is_cidr_range(octets), *expected);
    }
}

// RFC 4518, 2.2: the controls 9 to 13 are mapped to a space, and other controls to nothing.
static TEXTS: [(&[u8], bool); 5] = [
    (b"Example One", true),
    (&[0x61, 0x09, 0x62], true),
    (&[0x61, 0x01], false),
    (&[0x61, 0x7F], false),
    (&[0xC3, 0x89], false),
];

#[test]
fn plain_texts_are_of_ascii_without_controls(rt: HostRuntime) {
    for (row, (octets, expected)) in TEXTS.iter().enumerate() {
        same_at(&rt, row, is_plain_text(octets), *expected);
    }
}
