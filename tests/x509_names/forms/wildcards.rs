//! Names with an asterisk and the constraint of a dNSName. The expected answers follow from RFC 9525, 6.3 (an asterisk is the whole first label, and
//! matches exactly one label), and RFC 5280, 4.2.1.10 ("any DNS name that can be constructed by simply adding zero or more labels").
use crate::checks::same_at;
use x509_names::{are_all_below_host, is_some_below_host};

// A constraint, a name, and whether all and whether some of the names for which it stands are within.
static WILDCARDS: [(&[u8], &[u8], bool, bool); 13] = [
    (b"foo.example.com", b"*.EXAMPLE.com", false, true),
    (b"FOO.example.COM", b"*.example.com", false, true),
    (b"a.foo.example.com", b"*.example.com", false, false),
    (b"example.com", b"*.example.com", true, true),
    (b"com", b"*.example.com", true, true),
    (b"example.com", b"*.com", false, true),
    (b".example.com", b"*.example.com", true, true),
    (b".foo.example.com", b"*.example.com", false, false),
    (b"badexample.com", b"*.example.com", false, false),
    (b"", b"*.example.com", true, true),
    (b"foo.example.com", b"a.foo.example.com", true, true),
    (b"foo.example.com", b"bar.example.com", false, false),
    (b"foo.example.com", b"f*.example.com", false, false),
];

#[test]
fn an_asterisk_stands_for_one_label(rt: HostRuntime) {
    for (row, (base, name, all, some)) in WILDCARDS.iter().enumerate() {
        same_at(&rt, row, are_all_below_host(base, name), *all);
        same_at(&rt, row, is_some_below_host(base, name), *some);
    }
}
