//! A sample of command lines with the option `--ber`, and their output. The output was made by an
//! independent model of the definitions. That model was compared with the Rust crate `der` 0.8.3 on
//! 131 million inputs.
use super::USAGE;

/// Samples with the option `--ber`. Each row has the words of a command line, separated by single
/// blanks, the expected exit status, and the expected text.
pub const BER_CASES: [(&str, u8, &str); 59] = [
    (
        "head --ber 248004016900000000",
        0,
        "tag: OCTET STRING\nconstructed: yes\nlength: 5 indefinite\nrest: 04016900000000\n",
    ),
    (
        "head --ber 248024802480248024800402000000000000000000000000",
        0,
        "tag: OCTET STRING\nconstructed: yes\nlength: 22 indefinite\n\
        rest: 24802480248024800402000000000000000000000000\n",
    ),
    (
        "head --ber bf8180008030805f7f0caac28ed3dc2d3361b31ad39c00000000",
        0,
        "tag: CONTEXT-SPECIFIC [16384] (constructed)\nconstructed: yes\nlength: 21 indefinite\n\
        rest: 30805f7f0caac28ed3dc2d3361b31ad39c00000000\n",
    ),
    (
        "head --ber 31801A1A00000000000000000000000000000000000000000000000000000A08000\
        00000000000000000",
        0,
        "tag: SET\nconstructed: yes\nlength: 40 indefinite\n\
        rest: 1a1a00000000000000000000000000000000000000000000000000000a08000000000000\
        00000000\n",
    ),
    (
        "head --ber 3180182500000000000000000000000000000000000000000000000000000000000\
        00000000000000000006fcac7",
        0,
        "tag: SET\nconstructed: yes\nlength: 41 indefinite\n\
        rest: 182500000000000000000000000000000000000000000000000000000000000000000000\
        00000000006fcac7\n",
    ),
    (
        "head --ber 2480248024802480248024802480248024802480248024802480248024802480248\
        024802480248024802480248024802480248024802480248024802480000000000000000000000\
        000000000000000000000000000000000000000000000000000000000000000000000000000000\
        0000000000000000000000000",
        0,
        "tag: OCTET STRING\nconstructed: yes\nlength: 122 indefinite\n\
        rest: 248024802480248024802480248024802480248024802480248024802480248024802480\
        248024802480248024802480248024802480248024802480000000000000000000000000000000\
        000000000000000000000000000000000000000000000000000000000000000000000000000000\
        0000000000000000\n",
    ),
    (
        "head --ber 3080047f00000000000000000000000000000000000000000000000000000000000\
        000000000000000000000000000000000000000000000000000000000000000000000000000000\
        00000000000000000000000000000000000000000000000000000ff00010000000000000000000\
        00000000000000000000000000000000000000000000000",
        0,
        "tag: SEQUENCE\nconstructed: yes\nlength: 131 indefinite\n\
        rest: 047f00000000000000000000000000000000000000000000000000000000000000000000\
        000000000000000000000000000000000000000000000000000000000000000000000000000000\
        00000000000000000000000000000000000000000000ff00010000000000000000000000000000\
        00000000000000000000000000000000000000\n",
    ),
    (
        "head --ber 24020500",
        0,
        "tag: OCTET STRING\nconstructed: yes\nlength: 2\nrest: 0500\n",
    ),
    (
        "head --ber 240424800000",
        0,
        "tag: OCTET STRING\nconstructed: yes\nlength: 4\nrest: 24800000\n",
    ),
    (
        "head --ber 24060000248004000000",
        0,
        "tag: OCTET STRING\nconstructed: yes\nlength: 6\nrest: 0000248004000000\n",
    ),
    (
        "head --ber 248183248180247E247C247A24782476247424",
        0,
        "tag: OCTET STRING\nconstructed: yes\nlength: 131\n\
        rest: 248180247e247c247a24782476247424\n",
    ),
    (
        "head --ber 24197f81808000137f8Fa0ECF35780fF2080000016039F053f0000",
        0,
        "tag: OCTET STRING\nconstructed: yes\nlength: 25\n\
        rest: 7f81808000137f8fa0ecf35780ff2080000016039f053f0000\n",
    ),
    ("tlv --ber 24800000", 0, "24800000\n"),
    ("tlv --ber 31800000", 0, "31800000\n"),
    ("tlv --ber 318031800000000024", 0, "3180318000000000\n"),
    (
        "tlv --ber 2480300b9ce776cc9df17e1febb89d0000",
        0,
        "2480300b9ce776cc9df17e1febb89d0000\n",
    ),
    (
        "tlv --ber 30800481810000000000000000000000000000000000000000000000000000000000\
        000000000000000000000000000000000000000000000000000000000000000000000000000000\
        000000000000000000000000000000000000000000000000000000000000000000000000000000\
        00000000000000000000000000000000000000000000000000",
        0,
        "308004818100000000000000000000000000000000000000000000000000000000000000000000\
        000000000000000000000000000000000000000000000000000000000000000000000000000000\
        000000000000000000000000000000000000000000000000000000000000000000000000000000\
        00000000000000000000000000000000000000\n",
    ),
    ("tlv --ber 1b00", 0, "1b00\n"),
    ("tlv --ber 9F8FFFFF7f03000000", 0, "9f8fffff7f03000000\n"),
    (
        "tlv --ber 7f83ecffeb382185d6ed090b9973a065020ea946d436f97f42e0425e28814ef38735\
        d157ab8e6e94",
        0,
        "7f83ecffeb382185d6ed090b9973a065020ea946d436f97f42e0425e28814ef38735d157ab8e6e94\n",
    ),
    (
        "head --ber ",
        1,
        "error: ASN.1 DER message is incomplete: expected 1, actual 0 at DER byte 0\n",
    ),
    (
        "head --ber 0480a18030805f9e0000",
        1,
        "error: ASN.1 DER message is incomplete: expected 11, actual 10 at DER byte 10\n",
    ),
    (
        "head --ber 2480",
        1,
        "error: ASN.1 DER message is incomplete: expected 3, actual 2 at DER byte 2\n",
    ),
    (
        "head --ber 308030",
        1,
        "error: ASN.1 DER message is incomplete: expected 4, actual 3 at DER byte 3\n",
    ),
    (
        "head --ber 3080040100",
        1,
        "error: ASN.1 DER message is incomplete: expected 6, actual 5 at DER byte 5\n",
    ),
    (
        "head --ber 30800484FFFFFFFF0000",
        1,
        "error: ASN.1 DER message is incomplete: expected 24, actual 10 at DER byte 8\n",
    ),
    (
        "head --ber 30807fff7f0030221a200184ff05ff82043124811f9f008100019f3080dfdf3fff8\
        35f0483309f7f04307f7f2004dfdf24825f8085bf7f30839f5f24bf9f3fa0833f05ff053f0580057f",
        1,
        "error: ASN.1 DER message is incomplete: expected 77, actual 74 at DER byte 61\n",
    ),
    (
        "tlv --ber ",
        1,
        "error: ASN.1 DER message is incomplete: expected 1, actual 0 at DER byte 0\n",
    ),
    (
        "tlv --ber FF7E80317F308024FFDFFFFF3F7F809F30A0BF0430DFFF051F",
        1,
        "error: ASN.1 DER message is incomplete: expected 37, actual 25 at DER byte 21\n",
    ),
    (
        "tlv --ber A280",
        1,
        "error: ASN.1 DER message is incomplete: expected 3, actual 2 at DER byte 2\n",
    ),
    (
        "tlv --ber 30800481FA00",
        1,
        "error: ASN.1 DER message is incomplete: expected 21, actual 6 at DER byte 5\n",
    ),
    (
        "tlv --ber 2480040980819decc91e82",
        1,
        "error: ASN.1 DER message is incomplete: expected 13, actual 11 at DER byte 4\n",
    ),
    (
        "tlv --ber 30800479000000000000000000000000000000000000000000000000000000000000\
        0000000000000000000000",
        1,
        "error: ASN.1 DER message is incomplete: expected 52, actual 45 at DER byte 36\n",
    ),
    (
        "head --ber 0480048085821f",
        1,
        "error: indefinite length disallowed/malformed at DER byte 4\n",
    ),
    (
        "head --ber 048004803f863b83ff0530",
        1,
        "error: indefinite length disallowed/malformed at DER byte 4\n",
    ),
    (
        "head --ber 24800580",
        1,
        "error: indefinite length disallowed/malformed at DER byte 4\n",
    ),
    (
        "head --ber 30803080308030803080048000000000000000000000",
        1,
        "error: indefinite length disallowed/malformed at DER byte 12\n",
    ),
    (
        "head --ber 2480018024802480248024800000248024802480248005000000000000000000000\
        000000000000000000000",
        1,
        "error: indefinite length disallowed/malformed at DER byte 4\n",
    ),
    (
        "tlv --ber 2480a180003e0000",
        1,
        "error: indefinite length disallowed/malformed at DER byte 6\n",
    ),
    (
        "head --ber 2480248024802480248024802480248024802480248024802480248024802480248\
        024802480248024802480248024802480248024802480248024802480248024802480248024802\
        480248024802480248024802480248024802480248024802480248024802480248024802480248\
        02480248024802480248024802480248024802480248024802480248000000000000000",
        1,
        "error: too many nested productions encountered at DER byte 130\n",
    ),
    (
        "tlv --ber 24802480248024802480248024802480248024802480248024802480248024802480\
        248024802480248024802480248024802480248024802480248024802480248024802480248024\
        802480248024802480248024802480248024802480248024802480248024802480248024802480\
        2480248024802480248024802480248024800401AA000000000000000000000000000000000000\
        000000000000000000000000000000000000000000000000000000000000000000000000000000\
        000000000000000000000000000000000000000000000000000000000000000000000000000000\
        02000000000000000000002400000000000000000000000000000000000000000000",
        1,
        "error: too many nested productions encountered at DER byte 130\n",
    ),
    (
        "head --ber 3F001F1E8190FF9FDF",
        1,
        "error: unknown/unsupported ASN.1 DER tag: 0x3f at DER byte 1\n",
    ),
    (
        "head --ber 308030803F000024",
        1,
        "error: unknown/unsupported ASN.1 DER tag: 0x3f at DER byte 5\n",
    ),
    (
        "tlv --ber 00001a81ff0000",
        1,
        "error: unknown/unsupported ASN.1 DER tag: 0x00 at DER byte 1\n",
    ),
    (
        "tlv --ber 30803f0000000000",
        1,
        "error: unknown/unsupported ASN.1 DER tag: 0x3f at DER byte 3\n",
    ),
    (
        "tlv --ber 31803180a00aa080a080308000000000000020310000",
        1,
        "error: unknown/unsupported ASN.1 DER tag: 0x20 at DER byte 19\n",
    ),
    (
        "head --ber FF0500000000",
        1,
        "error: invalid tag number at DER byte 2\n",
    ),
    (
        "tlv --ber ff01007fff0585c1471f",
        1,
        "error: invalid tag number at DER byte 2\n",
    ),
    (
        "tlv --ber 24805F041F0000310000000000000000000000000000000000000000000000000000\
        0000240302012A8000",
        1,
        "error: invalid tag number at DER byte 4\n",
    ),
    (
        "head --ber 24e35d1cb4da",
        1,
        "error: incorrect length for OCTET STRING at DER byte 2\n",
    ),
    (
        "head --ber 248030ff0000",
        1,
        "error: incorrect length for SEQUENCE at DER byte 4\n",
    ),
    (
        "head --ber a08030ff7f840197dda1",
        1,
        "error: incorrect length for SEQUENCE at DER byte 4\n",
    ),
    (
        "tlv --ber 5f1f8f83000100",
        1,
        "error: incorrect length for APPLICATION [31] (primitive) at DER byte 3\n",
    ),
    (
        "tlv --ber 3080a1803080300280827f7f0a1e0800000000000000000000a180a180a18004817f0000",
        1,
        "error: incorrect length for OCTET STRING at DER byte 34\n",
    ),
    ("head --ber Gg", 2, USAGE),
    ("head 0182ffff8258ba3d --ber", 2, USAGE),
    ("tlv --ber O0", 2, USAGE),
    (
        "--ber tlv 048004119c6e2d480165e25611edea7f7223145bc524041502c0a93080a18004800000",
        2,
        USAGE,
    ),
    ("order --ber 1768330ACDD3D7F70BDF", 2, USAGE),
];
