//! A sample of command lines with the command `join`, and their output. The output was made by an
//! independent model of the definitions. That model was compared with the Rust crate `der` 0.8.3 on
//! 131 million inputs, except for segments inside a segment, which that crate does not join.

/// Samples of the command `join`. Each row has the words of a command line, separated by single
/// blanks, the expected exit status, and the expected text.
pub const JOIN_CASES: [(&str, u8, &str); 67] = [
    (
        "join 0484FFFFFFF9",
        1,
        "error: ASN.1 DER message is incomplete: expected 7, actual 6 at DER byte 6\n",
    ),
    ("join 0484FFFFFFFA", 1, "error: integer overflow\n"),
    (
        "join 24060484FFFFFFF7",
        1,
        "error: ASN.1 DER message is incomplete: expected 4294967295, actual 8 at DER byte 8\n",
    ),
    ("join 24060484FFFFFFF8", 1, "error: integer overflow\n"),
    (
        "join 24062484FFFFFFF7",
        1,
        "error: ASN.1 DER message is incomplete: expected 9, actual 8 at DER byte 8\n",
    ),
    ("join 24062484FFFFFFF8", 1, "error: integer overflow\n"),
    ("join 240b2480248000000000040170", 0, "70\n"),
    (
        "join 248004040000000000000000",
        1,
        "error: trailing data at end of DER message: decoded 10 bytes, 2 bytes remaining at DER \
        byte 10\n",
    ),
    (
        "join 000000",
        1,
        "error: unknown/unsupported ASN.1 DER tag: 0x00 at DER byte 1\n",
    ),
    (
        "join 04247f9f80818505048404057f8324852483df81848283df30a07f5f7f3fff000430813f0501",
        0,
        "7f9f80818505048404057f8324852483df81848283df30a07f5f7f3fff000430813f0501\n",
    ),
    (
        "join 2400008004119f7f84017f24053f013f8284a07f00",
        1,
        "error: trailing data at end of DER message: decoded 2 bytes, 19 bytes remaining at DER \
        byte 2\n",
    ),
    (
        "join 041924733C647C92D7b714F950e4E526bCE630A9E76aE52ECa5e8d",
        0,
        "24733c647c92d7b714f950e4e526bce630a9e76ae52eca5e8d\n",
    ),
    (
        "join 0000ff00",
        1,
        "error: unknown/unsupported ASN.1 DER tag: 0x00 at DER byte 1\n",
    ),
    (
        "join 7f9080800002000031209f81808000054ed0f29eaa1413300130bf3f008183055f048400828200805f31",
        1,
        "error: unexpected ASN.1 DER tag: expected OCTET STRING, got APPLICATION [33554432] \
        (constructed)\n",
    ),
    (
        "join 2403805f01aa0000",
        1,
        "error: unexpected ASN.1 DER tag: expected OCTET STRING, got CONTEXT-SPECIFIC [0] \
        (primitive)\n",
    ),
    (
        "join 242304213b42d148771211d05124bd0d3a79abb65a7b4bc0bf35d656d7137466c2fdfb1ef9",
        0,
        "3b42d148771211d05124bd0d3a79abb65a7b4bc0bf35d656d7137466c2fdfb1ef9\n",
    ),
    (
        "join d0cb44b3ec5b87ee9c4b",
        1,
        "error: incorrect length for PRIVATE [16] (primitive) at DER byte 2\n",
    ),
    ("join 24030401Aa", 0, "aa\n"),
    (
        "join 24802480248000310000000000",
        1,
        "error: indefinite length disallowed/malformed at DER byte 8\n",
    ),
    (
        "join ff1f00",
        1,
        "error: unexpected ASN.1 DER tag: expected OCTET STRING, got PRIVATE [31] (constructed)\n",
    ),
    (
        "join 2415040f474392988153791696ff23cbb286d724800000",
        0,
        "474392988153791696ff23cbb286d7\n",
    ),
    (
        "join 24802481000000",
        1,
        "error: incorrect length for OCTET STRING at DER byte 5\n",
    ),
    ("join 0402FDDB", 0, "fddb\n"),
    (
        "join 040c000000000000000000000000",
        0,
        "000000000000000000000000\n",
    ),
    (
        "join 1484FFFFFFF9000000000000000000000000000000",
        1,
        "error: unexpected ASN.1 DER tag: expected OCTET STRING, got TeletexString\n",
    ),
    (
        "join 040F44A29800002d0E5f7821a993A0b35A3978",
        1,
        "error: trailing data at end of DER message: decoded 17 bytes, 2 bytes remaining at DER \
        byte 17\n",
    ),
    ("join 04036EFF00", 0, "6eff00\n"),
    (
        "join 041c0000000000000000000000000000000000000000000000ff00000000",
        0,
        "0000000000000000000000000000000000000000000000ff00000000\n",
    ),
    (
        "join 0000091038e17998c31beef09450ff015684f5e7",
        1,
        "error: unknown/unsupported ASN.1 DER tag: 0x00 at DER byte 1\n",
    ),
    ("join 0406000000000000", 0, "000000000000\n"),
    ("join 248024030401aa0000", 0, "aa\n"),
    (
        "join 600f313030249f7f1f843f0000000405ff",
        1,
        "error: unexpected ASN.1 DER tag: expected OCTET STRING, got APPLICATION [0] \
        (constructed)\n",
    ),
    (
        "join FF818080800027131E0000000000000000000000000000000100000000000000000000003105\
        FF81800100",
        1,
        "error: unexpected ASN.1 DER tag: expected OCTET STRING, got PRIVATE [268435456] \
        (constructed)\n",
    ),
    (
        "join 240424020500",
        1,
        "error: unexpected ASN.1 DER tag: expected OCTET STRING, got NULL\n",
    ),
    (
        "join 041b8201ff5f85305fff81a00505817f8580df8581809f303f008085ff",
        0,
        "8201ff5f85305fff81a00505817f8580df8581809f303f008085ff\n",
    ),
    ("join 24030401aa", 0, "aa\n"),
    (
        "join bf8fffffff7f0f000000000000000000000000000000",
        1,
        "error: unexpected ASN.1 DER tag: expected OCTET STRING, got CONTEXT-SPECIFIC \
        [4294967295] (constructed)\n",
    ),
    (
        "join 2406240424020500",
        1,
        "error: unexpected ASN.1 DER tag: expected OCTET STRING, got NULL\n",
    ),
    (
        "join 24BF80002400",
        1,
        "error: incorrect length for OCTET STRING at DER byte 2\n",
    ),
    (
        "join 040f8083df9f3031838101ff30827f8004",
        0,
        "8083df9f3031838101ff30827f8004\n",
    ),
    (
        "join 3080308000ffe82fc7",
        1,
        "error: indefinite length disallowed/malformed at DER byte 6\n",
    ),
    ("join 240524030401aa", 0, "aa\n"),
    (
        "join 6D7821",
        1,
        "error: unexpected ASN.1 DER tag: expected OCTET STRING, got APPLICATION [13] \
        (constructed)\n",
    ),
    (
        "join cf840000007fdac35012a0eee062b29d4b3ea2e71f284a8200001fda",
        1,
        "error: incorrect length for PRIVATE [15] (primitive) at DER byte 6\n",
    ),
    (
        "join 8061d181677f4219e9",
        1,
        "error: unexpected ASN.1 DER tag: expected OCTET STRING, got CONTEXT-SPECIFIC [0] \
        (primitive)\n",
    ),
    (
        "join 68C20100AC008532bfE4f1cab4A3191Ae0E0E6609f6219975FBC80",
        1,
        "error: incorrect length for APPLICATION [8] (constructed) at DER byte 2\n",
    ),
    (
        "join 041C00000000000000000000000000000000000000000000000000000000",
        0,
        "00000000000000000000000000000000000000000000000000000000\n",
    ),
    (
        "join 5e00000000",
        1,
        "error: unexpected ASN.1 DER tag: expected OCTET STRING, got APPLICATION [30] \
        (primitive)\n",
    ),
    (
        "join 0420b6b03cfdb84094db32a7a77b9567a7daed322b088622c2a55cf27c60957046b2",
        0,
        "b6b03cfdb84094db32a7a77b9567a7daed322b088622c2a55cf27c60957046b2\n",
    ),
    (
        "join 5FFFFFFF7F8400000080144E",
        1,
        "error: incorrect length for APPLICATION [268435455] (primitive) at DER byte 10\n",
    ),
    (
        "join ff2081ff",
        1,
        "error: unexpected ASN.1 DER tag: expected OCTET STRING, got PRIVATE [32] (constructed)\n",
    ),
    (
        "join 24800605BF00821F1FBF2004D5B13B4DDFFFFFFF7F023F800000",
        1,
        "error: unexpected ASN.1 DER tag: expected OCTET STRING, got OBJECT IDENTIFIER\n",
    ),
    ("join 24800405631870e1910000", 0, "631870e191\n"),
    (
        "join 041f028fe6070ebd24caf489b24a3c14b81743ddc40de6551011c49e7453c7657e",
        0,
        "028fe6070ebd24caf489b24a3c14b81743ddc40de6551011c49e7453c7657e\n",
    ),
    (
        "join 1383A00000CB0000",
        1,
        "error: unexpected ASN.1 DER tag: expected OCTET STRING, got PrintableString\n",
    ),
    (
        "join 04230000000000000000000000000000000000000000000000000000000000000000000000",
        0,
        "0000000000000000000000000000000000000000000000000000000000000000000000\n",
    ),
    ("join 24022400", 0, "-\n"),
    (
        "join 24082480240205000000",
        1,
        "error: unexpected ASN.1 DER tag: expected OCTET STRING, got NULL\n",
    ),
    (
        "join df1f11",
        1,
        "error: unexpected ASN.1 DER tag: expected OCTET STRING, got PRIVATE [31] (primitive)\n",
    ),
    (
        "join df1f111f",
        1,
        "error: unexpected ASN.1 DER tag: expected OCTET STRING, got PRIVATE [31] (primitive)\n",
    ),
    (
        "join dF1f111f81",
        1,
        "error: unexpected ASN.1 DER tag: expected OCTET STRING, got PRIVATE [31] (primitive)\n",
    ),
    (
        "join 788200011a24",
        1,
        "error: incorrect length for APPLICATION [24] (constructed) at DER byte 4\n",
    ),
    (
        "join 24ff0000",
        1,
        "error: incorrect length for OCTET STRING at DER byte 2\n",
    ),
    (
        "join 300b3109ff818024003002a601",
        1,
        "error: unexpected ASN.1 DER tag: expected OCTET STRING, got SEQUENCE\n",
    ),
    (
        "join bf1fff05",
        1,
        "error: incorrect length for CONTEXT-SPECIFIC [31] (constructed) at DER byte 3\n",
    ),
    (
        "join 84823fff",
        1,
        "error: unexpected ASN.1 DER tag: expected OCTET STRING, got CONTEXT-SPECIFIC [4] \
        (primitive)\n",
    ),
    (
        "join 242524800000041f00000000000000000000000000000000000000000000000000000000000000",
        0,
        "00000000000000000000000000000000000000000000000000000000000000\n",
    ),
];
