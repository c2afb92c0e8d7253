//! A sample of command lines with the command `tlv`, and their output. The output was made by an
//! independent model of the definitions. That model was compared with the Rust crate `der` 0.8.3 on
//! 131 million inputs.
use super::USAGE;

/// Samples of the command `tlv`. Each row has the words of a command line, separated by single
/// blanks, the expected exit status, and the expected text.
pub const TLV_CASES: [(&str, u8, &str); 55] = [
    ("tlv 3100", 0, "3100\n"),
    (
        "tlv 1600A69F0DCB758813AD8AAE97264B279DFCD69796CE",
        0,
        "1600\n",
    ),
    ("tlv 0408D130149A4ED98A33", 0, "0408d130149a4ed98a33\n"),
    (
        "tlv ff1f008f8f1e86470742f476efaad9ad28572781c6375725d76826",
        0,
        "ff1f00\n",
    ),
    ("tlv 0200", 0, "0200\n"),
    (
        "tlv 0417000000000000000000002400000000000000000000000000",
        0,
        "04170000000000000000000024000000000000000000000000\n",
    ),
    ("tlv FF90808000041A5A093C", 0, "ff90808000041a5a093c\n"),
    (
        "tlv 6f107dcaad718683f23f39e3886a7fb200002460",
        0,
        "6f107dcaad718683f23f39e3886a7fb20000\n",
    ),
    ("tlv 3005bfffff7f00", 0, "3005bfffff7f00\n"),
    ("tlv bfffffff7f052b5e2b26b1", 0, "bfffffff7f052b5e2b26b1\n"),
    ("tlv 04073f307f9f045fff", 0, "04073f307f9f045fff\n"),
    ("tlv 14000f", 0, "1400\n"),
    (
        "tlv 310b7f2006ff00000000000400",
        0,
        "310b7f2006ff00000000000400\n",
    ),
    ("tlv 17050000460000", 0, "17050000460000\n"),
    (
        "tlv 050A75BFD7019F5800B88960",
        0,
        "050a75bfd7019f5800b88960\n",
    ),
    ("tlv 8401dfc47e9b", 0, "8401df\n"),
    ("tlv 3100926C5E9D", 0, "3100\n"),
    (
        "tlv 0411858081053FBF7FBF051F1F1F80805F043F",
        0,
        "0411858081053fbf7fbf051f1f1f80805f043f\n",
    ),
    (
        "tlv 0411EBDE527F0EBDAEDC5ED38F21A6D9526AFD",
        0,
        "0411ebde527f0ebdaedc5ed38f21a6d9526afd\n",
    ),
    ("tlv 0484FFFFFFFA", 1, "error: integer overflow\n"),
    ("tlv 9F1F84FFFFFFF9", 1, "error: integer overflow\n"),
    (
        "tlv 0484FFFFFFF9",
        1,
        "error: ASN.1 DER message is incomplete: expected 4294967295, actual 6 at DER byte 0\n",
    ),
    (
        "tlv 9F1F84FFFFFFF8",
        1,
        "error: ASN.1 DER message is incomplete: expected 4294967295, actual 7 at DER byte 0\n",
    ),
    (
        "tlv 7c0d2fbfaefbee137b16",
        1,
        "error: ASN.1 DER message is incomplete: expected 15, actual 10 at DER byte 0\n",
    ),
    (
        "tlv 04128100803f837f8384",
        1,
        "error: ASN.1 DER message is incomplete: expected 20, actual 10 at DER byte 0\n",
    ),
    (
        "tlv 811B9FAC6DF130DDC2170000",
        1,
        "error: ASN.1 DER message is incomplete: expected 29, actual 12 at DER byte 0\n",
    ),
    (
        "tlv c08181",
        1,
        "error: ASN.1 DER message is incomplete: expected 132, actual 3 at DER byte 0\n",
    ),
    (
        "tlv 30800000",
        1,
        "error: indefinite length disallowed/malformed at DER byte 2\n",
    ),
    (
        "tlv Bf8FffffFf7f80009EEC2655",
        1,
        "error: indefinite length disallowed/malformed at DER byte 7\n",
    ),
    (
        "tlv 30803080308030803080308000000000000000000000",
        1,
        "error: indefinite length disallowed/malformed at DER byte 2\n",
    ),
    (
        "tlv 308030800000248000000000",
        1,
        "error: indefinite length disallowed/malformed at DER byte 2\n",
    ),
    (
        "tlv 30800481fc00000000000000000000",
        1,
        "error: indefinite length disallowed/malformed at DER byte 2\n",
    ),
    (
        "tlv ff818000801e8f88f9f2",
        1,
        "error: indefinite length disallowed/malformed at DER byte 5\n",
    ),
    (
        "tlv 00DFD6CE7B22",
        1,
        "error: unknown/unsupported ASN.1 DER tag: 0x00 at DER byte 1\n",
    ),
    (
        "tlv 000001047F01803181001F",
        1,
        "error: unknown/unsupported ASN.1 DER tag: 0x00 at DER byte 1\n",
    ),
    (
        "tlv 24A02400",
        1,
        "error: unknown/unsupported ASN.1 DER tag: 0x24 at DER byte 1\n",
    ),
    (
        "tlv 2480a180a1805F9e0000",
        1,
        "error: unknown/unsupported ASN.1 DER tag: 0x24 at DER byte 1\n",
    ),
    (
        "tlv 00ff20a0809fa085",
        1,
        "error: unknown/unsupported ASN.1 DER tag: 0x00 at DER byte 1\n",
    ),
    (
        "tlv 24805f9e0000",
        1,
        "error: unknown/unsupported ASN.1 DER tag: 0x24 at DER byte 1\n",
    ),
    (
        "tlv 273d5fde22c0a42000",
        1,
        "error: unknown/unsupported ASN.1 DER tag: 0x27 at DER byte 1\n",
    ),
    (
        "tlv a299",
        1,
        "error: incorrect length for CONTEXT-SPECIFIC [2] (constructed) at DER byte 2\n",
    ),
    (
        "tlv A2820000AAF58E7CB5AB841B80B2CD4013F451AD3E18F0D8",
        1,
        "error: incorrect length for CONTEXT-SPECIFIC [2] (constructed) at DER byte 4\n",
    ),
    (
        "tlv 9F8ffFfF7F8300010054",
        1,
        "error: incorrect length for CONTEXT-SPECIFIC [33554431] (primitive) at DER byte 9\n",
    ),
    (
        "tlv 4397d21573",
        1,
        "error: incorrect length for APPLICATION [3] (primitive) at DER byte 2\n",
    ),
    (
        "tlv 49faa674bB2F0f",
        1,
        "error: incorrect length for APPLICATION [9] (primitive) at DER byte 2\n",
    ),
    (
        "tlv DF8081018F7F05F58394587C671EEA764C94F8A5332666DB401C14",
        1,
        "error: invalid tag number at DER byte 2\n",
    ),
    (
        "tlv 5f8f83ffffff7f82fffe0500813185823f1f3f0500045f81000030",
        1,
        "error: invalid tag number at DER byte 6\n",
    ),
    (
        "tlv DF808F90800529",
        1,
        "error: invalid tag number at DER byte 2\n",
    ),
    (
        "tlv BF0184000000FF8200851F7F841F81803F8105857F83009F050504",
        1,
        "error: invalid tag number at DER byte 2\n",
    ),
    (
        "tlv 9f1e801f011f1f050000000500a0000000000000000000000000000000",
        1,
        "error: invalid tag number at DER byte 2\n",
    ),
    (
        "tlv 0DFE0000000000000000000000000000000000000000",
        1,
        "error: incorrect length for RELATIVE OID at DER byte 2\n",
    ),
    (
        "tlv --ber 30800484FFFFFFFF0000",
        1,
        "error: ASN.1 DER message is incomplete: expected 24, actual 10 at DER byte 8\n",
    ),
    ("tlv --ber 24800401AA0000", 0, "24800401aa0000\n"),
    (
        "tlv --ber 048000000000",
        1,
        "error: indefinite length disallowed/malformed at DER byte 2\n",
    ),
    (
        "tlv --ber 002e00",
        1,
        "error: unknown/unsupported ASN.1 DER tag: 0x00 at DER byte 1\n",
    ),
];
