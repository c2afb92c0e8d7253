//! Tests of the command `order`: two elements, and how they compare.
use super::{USAGE, replay};
use std::test::Fail;

// Tags come before lengths, lengths before contents; octets decide, not the numbers of tags.
#[test]
fn prints_the_order_of_two_elements(rt: HostRuntime) -> Result<(), Fail> {
    let rows = [
        ("order 0400 0400", 0, "equal\n"),
        ("order 04012a 04012A", 0, "equal\n"),
        ("order 9FFF7F00 9F81800000", 0, "greater\n"),
        ("order 3000 1600", 0, "greater\n"),
        ("order 0401FF 04020000", 0, "less\n"),
        ("order 04020001 04020002", 0, "less\n"),
        ("order 04020002 04020001", 0, "greater\n"),
    ];
    replay(&rt, &rows)
}

#[test]
fn refuses_what_is_not_wholly_an_element(rt: HostRuntime) -> Result<(), Fail> {
    let rows = [
        (
            "order 3000 02012A00",
            1,
            "error: trailing data at end of DER message: decoded 3 bytes, 1 bytes remaining at DER \
            byte 3\n",
        ),
        (
            "order 0405 3000",
            1,
            "error: ASN.1 DER message is incomplete: expected 3, actual 2 at DER byte 2\n",
        ),
        (
            "order 308100 3000",
            1,
            "error: incorrect length for SEQUENCE at DER byte 3\n",
        ),
        ("order 3000 0484FFFFFFFF", 1, "error: integer overflow\n"),
        (
            "order 30800000 3000",
            1,
            "error: indefinite length disallowed/malformed at DER byte 2\n",
        ),
    ];
    replay(&rt, &rows)
}

#[test]
fn the_first_of_two_rejected_elements_is_printed(rt: HostRuntime) -> Result<(), Fail> {
    let rows = [
        (
            "order 3F 1F",
            1,
            "error: unknown/unsupported ASN.1 DER tag: 0x3f at DER byte 1\n",
        ),
        (
            "order 1F 3F",
            1,
            "error: invalid tag number at DER byte 1\n",
        ),
        (
            "order 300000 0405",
            1,
            "error: trailing data at end of DER message: decoded 2 bytes, 1 bytes remaining at DER \
            byte 2\n",
        ),
        (
            "order 0405 300000",
            1,
            "error: ASN.1 DER message is incomplete: expected 3, actual 2 at DER byte 2\n",
        ),
    ];
    replay(&rt, &rows)
}

#[test]
fn an_empty_word_is_no_element(rt: HostRuntime) -> Result<(), Fail> {
    let line = "error: ASN.1 DER message is incomplete: expected 1, actual 0 at DER byte 0\n";
    let rows = [
        ("order  3000", 1, line),
        ("order 3000 ", 1, line),
        ("order  ", 1, line),
        ("order  3F", 1, line),
    ];
    replay(&rt, &rows)
}

// Both words are checked before either is decoded, and only DER is read.
#[test]
fn prints_the_usage_of_other_words_for_order(rt: HostRuntime) -> Result<(), Fail> {
    let lines = [
        "order 3000",
        "order 300 3F",
        "order 3F 300",
        "order 3000 30é",
        "order 3000 3000 3000",
        "order --ber 3000 3000",
        "order --ber 3000",
        "order 3000 --ber",
        "order 3000 --ber 3000",
        "ORDER 3000 3000",
        "3000 order 3000",
    ];
    for line in lines {
        replay(&rt, &[(line, 2, USAGE)])?;
    }
    Ok(())
}
