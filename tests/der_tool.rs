//! Tests of what the contracts do not state: that calls succeed, and which words and texts the
//! program reads and prints.
mod arguments;
mod ber;
mod ber_cases;
mod cases;
mod join;
mod join_cases;
mod memory;
mod order;
mod order_cases;
mod tlv_cases;
mod writers;

use der_tool_lib::run;
use std::alloc::{AllocError, Global};
use std::process::Abort;
use std::test::Fail;

const USAGE: &str =
    "usage: der_tool head [--ber] HEX | tlv [--ber] HEX | order HEX HEX | join HEX\n";

/// Splits a line into words at each blank.
fn words_of(alloc: Global, line: &str) -> Result<Vec<String>, AllocError> {
    line.split(' ')
        .map(|word| String::from_str(alloc, word))
        .try_collect(alloc)
}

/// Runs the program once for each row of `rows`. A row has the words of a command line, the
/// expected exit status and the expected text. Fails if a run gives another status or another text.
fn replay(rt: &(impl Abort + AllocGlobal), rows: &[(&str, u8, &str)]) -> Result<(), Fail> {
    for (line, status, text) in rows {
        let words = words_of(rt.alloc(), line)?;
        let mut out = Vec::new(rt.alloc());
        let got = run(rt.alloc(), &words, &mut out);
        assert_eq!(rt; got, *status, "at {line}");
        assert!(rt; out.as_slice() == text.as_bytes(), "at {line}");
    }
    Ok(())
}

#[test]
fn prints_a_header(rt: HostRuntime) -> Result<(), Fail> {
    let rows = [
        (
            "head 02012A00",
            0,
            "tag: INTEGER\nconstructed: no\nlength: 1\nrest: 2a00\n",
        ),
        (
            "head 3000",
            0,
            "tag: SEQUENCE\nconstructed: yes\nlength: 0\nrest: -\n",
        ),
        (
            "head 3084FFFFFFFF",
            0,
            "tag: SEQUENCE\nconstructed: yes\nlength: 4294967295\nrest: -\n",
        ),
    ];
    replay(&rt, &rows)
}

#[test]
fn refuses_what_begins_with_no_header(rt: HostRuntime) -> Result<(), Fail> {
    let rows = [
        (
            "head 04817F",
            1,
            "error: incorrect length for OCTET STRING at DER byte 3\n",
        ),
        (
            "head 30",
            1,
            "error: ASN.1 DER message is incomplete: expected 2, actual 1 at DER byte 1\n",
        ),
        (
            "head 0480",
            1,
            "error: indefinite length disallowed/malformed at DER byte 2\n",
        ),
        ("head 1F", 1, "error: invalid tag number at DER byte 1\n"),
        (
            "head 24040402AABB",
            1,
            "error: unknown/unsupported ASN.1 DER tag: 0x24 at DER byte 1\n",
        ),
        (
            "head ",
            1,
            "error: ASN.1 DER message is incomplete: expected 1, actual 0 at DER byte 0\n",
        ),
        (
            "head 3F",
            1,
            "error: unknown/unsupported ASN.1 DER tag: 0x3f at DER byte 1\n",
        ),
    ];
    replay(&rt, &rows)
}

#[test]
fn prints_an_element(rt: HostRuntime) -> Result<(), Fail> {
    let rows = [
        ("tlv 30020500FF", 0, "30020500\n"),
        ("tlv 02012A00", 0, "02012a\n"),
        ("tlv 3000", 0, "3000\n"),
    ];
    replay(&rt, &rows)
}

#[test]
fn refuses_what_begins_with_no_element(rt: HostRuntime) -> Result<(), Fail> {
    let rows = [
        (
            "tlv 3002",
            1,
            "error: ASN.1 DER message is incomplete: expected 4, actual 2 at DER byte 0\n",
        ),
        ("tlv 0184FFFFFFFF", 1, "error: integer overflow\n"),
        (
            "tlv 04817F",
            1,
            "error: incorrect length for OCTET STRING at DER byte 3\n",
        ),
        (
            "tlv ",
            1,
            "error: ASN.1 DER message is incomplete: expected 1, actual 0 at DER byte 0\n",
        ),
    ];
    replay(&rt, &rows)
}

// Only ASCII digits count, in pairs.
#[test]
fn prints_the_usage_of_other_words(rt: HostRuntime) -> Result<(), Fail> {
    let lines = [
        "",
        "head",
        "head 0",
        "head 000",
        "head +1",
        "head é",
        "head ３０",
        "head 3000 ",
        "head  3000",
        "Head 3000",
        "heads 3000",
        "head 3000 3000",
        "tlv",
        "tlv 0",
        "tlv 3000 3000",
        "Tlv 3000",
        "order",
        "Order 3000 3000",
        "orders 3000 3000",
    ];
    for line in lines {
        replay(&rt, &[(line, 2, USAGE)])?;
    }
    let mut out = Vec::new(rt.alloc());
    assert_eq!(rt; run(rt.alloc(), &[], &mut out), 2);
    assert!(rt; out.as_slice() == USAGE.as_bytes());
    Ok(())
}

#[test]
fn answers_each_row_of_the_samples(rt: HostRuntime) -> Result<(), Fail> {
    replay(&rt, &cases::CASES)?;
    replay(&rt, &tlv_cases::TLV_CASES)?;
    replay(&rt, &ber_cases::BER_CASES)?;
    replay(&rt, &order_cases::ORDER_CASES)?;
    replay(&rt, &join_cases::JOIN_CASES)
}
