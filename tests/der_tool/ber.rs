//! Tests of commands that read octets under the Basic Encoding Rules.
use super::{USAGE, replay};
use std::test::Fail;

/// The indefinite-length contents of a SEQUENCE in an encrypted message, in hexadecimal: 66 octets,
/// end-of-contents octets included. They hold the content type, the cipher, and the encrypted
/// octets, which are in indefinite-length contents themselves.
const MESSAGE_BODY: &str =
    "06092a864886f70d010701301d060960864801650304012a041037343df1470df625eeb6\
    f4bfd2f1acc3a0800410cc74adf65d973c8b72cd51e1b927f0f000000000";

/// 126 different octets in hexadecimal.
const CONTENTS: &str = "000102030405060708090a0b0c0d0e0f101112131415161718191a1b1c1d1e1f20212223\
    2425262728292a2b2c2d2e2f303132333435363738393a3b3c3d3e3f4041424344454647\
    48494a4b4c4d4e4f505152535455565758595a5b5c5d5e5f606162636465666768696a6b\
    6c6d6e6f707172737475767778797a7b7c7d";

#[test]
fn prints_a_header_by_ber(rt: HostRuntime) -> Result<(), Fail> {
    let rows = [
        (
            "head --ber 308024800402000000000000",
            0,
            "tag: SEQUENCE\nconstructed: yes\nlength: 10 indefinite\nrest: 24800402000000000000\n",
        ),
        (
            "head --ber 240109",
            0,
            "tag: OCTET STRING\nconstructed: yes\nlength: 1\nrest: 09\n",
        ),
        (
            "head --ber 02012A00",
            0,
            "tag: INTEGER\nconstructed: no\nlength: 1\nrest: 2a00\n",
        ),
    ];
    replay(&rt, &rows)
}

#[test]
fn prints_the_header_of_a_message(rt: HostRuntime) -> Result<(), Fail> {
    let words = format!(in rt.alloc(); "head --ber 3080{MESSAGE_BODY}")?;
    let lines = format!(in rt.alloc();
        "tag: SEQUENCE\nconstructed: yes\nlength: 66 indefinite\nrest: {MESSAGE_BODY}\n"
    )?;
    replay(&rt, &[(&words, 0, &lines)])
}

// Indefinite-length contents that end too early are found by the scan first, so a primitive
// identifier before an indefinite length is reported only if contents follow.
#[test]
fn refuses_what_begins_with_no_header_by_ber(rt: HostRuntime) -> Result<(), Fail> {
    let rows = [
        (
            "head --ber 0480",
            1,
            "error: ASN.1 DER message is incomplete: expected 3, actual 2 at DER byte 2\n",
        ),
        (
            "head --ber 04800000",
            1,
            "error: indefinite length disallowed/malformed at DER byte 2\n",
        ),
        (
            "head --ber 04817F",
            1,
            "error: incorrect length for OCTET STRING at DER byte 3\n",
        ),
        (
            "tlv --ber 04800000",
            1,
            "error: indefinite length disallowed/malformed at DER byte 2\n",
        ),
    ];
    replay(&rt, &rows)
}

#[test]
fn prints_an_element_by_ber(rt: HostRuntime) -> Result<(), Fail> {
    let rows = [
        ("tlv --ber 308005000000FF", 0, "308005000000\n"),
        ("tlv --ber 24040402AABBCC", 0, "24040402aabb\n"),
    ];
    replay(&rt, &rows)?;
    let words = format!(in rt.alloc(); "tlv --ber 3080047E{CONTENTS}0000")?;
    let line = format!(in rt.alloc(); "3080047e{CONTENTS}0000\n")?;
    replay(&rt, &[(&words, 0, &line)])
}

// The option comes right after the command, and all words are checked before any octets are.
#[test]
fn prints_the_usage_of_options_elsewhere(rt: HostRuntime) -> Result<(), Fail> {
    let lines = [
        "head --ber",
        "--ber head 00",
        "head 00 --ber",
        "head --BER 00",
        "head -ber 00",
        "head --ber --ber 00",
        "head --ber 0",
        "head --ber  00",
        "head --ber 3F 3F",
        "Head --ber 00",
        "tlv --ber",
        "--ber tlv 00",
        "tlv 00 --ber",
        "tlv --der 00",
        "tlv --ber --ber 00",
        "tlv --ber 0",
        "order --ber 3000",
        "--ber",
        "--ber 3000",
    ];
    for line in lines {
        replay(&rt, &[(line, 2, USAGE)])?;
    }
    Ok(())
}
