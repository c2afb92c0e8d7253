//! A sample of command lines with the command `order`, and their output. The output was made by an
//! independent model of the definitions. That model was compared with the Rust crate `der` 0.8.3 on
//! 131 million inputs.
use super::USAGE;

/// Samples of the command `order`. Each row has the words of a command line, separated by single
/// blanks, the expected exit status, and the expected text.
pub const ORDER_CASES: [(&str, u8, &str); 35] = [
    (
        "order 021c5c0a71282393631c12c28846d09d496fc530cb91ca102169c1e96153 \
        021C5C0A71282393631C12C28846D09D496FC530CB91CA102169C1E96153",
        0,
        "equal\n",
    ),
    (
        "order be0cf3e496b639f0e444e7cf7455 be0cf3e496B639F0E444E7cf7455",
        0,
        "equal\n",
    ),
    ("order 13020000 13020000", 0, "equal\n"),
    ("order AF00 af00", 0, "equal\n"),
    ("order DF888080800000 df8fffff7f00", 0, "less\n"),
    ("order 61020000 7f818000020000", 0, "less\n"),
    (
        "order 9F81800005825F013185 9F81800006825F013185FF",
        0,
        "less\n",
    ),
    ("order c20100 df908080000100", 0, "less\n"),
    ("order 81015F 81025f00", 0, "less\n"),
    ("order c0050b1ff344de C0060B1FF344DE00", 0, "less\n"),
    (
        "order 17196e9d334a1cF1d68cdfD8d96fbE1e83EE9d10343b1030a0Dd8B \
        17196e9d334b1cf1d68cdfd8d96fbe1e83ee9d10343b1030a0dd8b",
        0,
        "less\n",
    ),
    ("order 7F7F00 7f7f0102", 0, "less\n"),
    ("order 7F8FFFFFFF7F00 7fff7f00", 0, "less\n"),
    (
        "order 7f7E00 CD148A5DA89A3463AA866ABBEC89A45B1D25354CD48E",
        0,
        "less\n",
    ),
    (
        "order 141C00000000000000000000000000000000000000000000000000000000 0D03000000",
        0,
        "greater\n",
    ),
    ("order 7F81010122 5f8fffffff7f0122", 0, "greater\n"),
    ("order FF20020000 dfff7f020000", 0, "greater\n"),
    (
        "order 7F8FFFFFFF7F0C000000000000000000000000 3100",
        0,
        "greater\n",
    ),
    ("order bf7f00 9f8fffff7f00", 0, "greater\n"),
    ("order ffff7f0100 ff81000100", 0, "greater\n"),
    (
        "order 020feed86fd77dd72d26f9fa13a53c5229 020feed86fd77dd72d2631fa13a53c5229",
        0,
        "greater\n",
    ),
    ("order a000 9f818080800000", 0, "greater\n"),
    (
        "order 24800000 3000",
        1,
        "error: unknown/unsupported ASN.1 DER tag: 0x24 at DER byte 1\n",
    ),
    (
        "order 0484FFFFFFF9 3000",
        1,
        "error: ASN.1 DER message is incomplete: expected 7, actual 6 at DER byte 6\n",
    ),
    ("order 0484FFFFFFFA 3000", 1, "error: integer overflow\n"),
    (
        "order 3000 2480",
        1,
        "error: unknown/unsupported ASN.1 DER tag: 0x24 at DER byte 1\n",
    ),
    (
        "order 3000 5f2020",
        1,
        "error: ASN.1 DER message is incomplete: expected 4, actual 3 at DER byte 3\n",
    ),
    (
        "order 1b0110 1bbf83100000",
        1,
        "error: incorrect length for GeneralString at DER byte 2\n",
    ),
    (
        "order 9884000101000000 7Fcc8BBD04023100",
        1,
        "error: incorrect length for CONTEXT-SPECIFIC [24] (primitive) at DER byte 6\n",
    ),
    (
        "order fe00 0000",
        1,
        "error: unknown/unsupported ASN.1 DER tag: 0x00 at DER byte 1\n",
    ),
    (
        "order 5f8201019f9f24 7f888080800000",
        1,
        "error: trailing data at end of DER message: decoded 5 bytes, 2 bytes remaining at DER \
        byte 5\n",
    ),
    (
        "order bfffff7f0382bf1f bffFFf7F030482801f",
        1,
        "error: trailing data at end of DER message: decoded 8 bytes, 1 bytes remaining at DER \
        byte 8\n",
    ),
    (
        "order ff8fffffff7f162b978e54ddd2b7e030e261fa551685c028cf0bcb83dc 9f1e9083",
        1,
        "error: invalid tag number at DER byte 2\n",
    ),
    (
        "order 040e671a3f96038c79c76858574cbcf8 040e671a3f96038c79c76858574cbcf8 ",
        2,
        USAGE,
    ),
    ("order BA8C --ber BA8C", 2, USAGE),
];
