//! A sample of command lines with many different words, and their output. The output was made by an
//! independent model of the definitions. That model was compared with the Rust crate `der` 0.8.3 on
//! 131 million inputs.
use super::USAGE;

/// Samples of the command `head`, and of command lines that have no valid command. Each row has the
/// words of a command line, separated by single blanks, the expected exit status, and the expected
/// text.
pub const CASES: [(&str, u8, &str); 78] = [
    (
        "head BF8FFFFFFF7F84FFFFFFFF",
        0,
        "tag: CONTEXT-SPECIFIC [4294967295] (constructed)\nconstructed: yes\nlength: 4294967295\nrest: -\n",
    ),
    (
        "head 9F1E00",
        1,
        "error: invalid tag number at DER byte 2\n",
    ),
    (
        "head 24800000",
        1,
        "error: unknown/unsupported ASN.1 DER tag: 0x24 at DER byte 1\n",
    ),
    (
        "head 0484FFFFFFFF",
        0,
        "tag: OCTET STRING\nconstructed: no\nlength: 4294967295\nrest: -\n",
    ),
    (
        "head 00",
        1,
        "error: unknown/unsupported ASN.1 DER tag: 0x00 at DER byte 1\n",
    ),
    ("--ber tlv 85481B", 2, USAGE),
    (
        "head 2417df83b8d9da2910830d7487af14c586a44f39bb31c154f3",
        1,
        "error: unknown/unsupported ASN.1 DER tag: 0x24 at DER byte 1\n",
    ),
    (
        "head 3006300430020500",
        0,
        "tag: SEQUENCE\nconstructed: yes\nlength: 6\nrest: 300430020500\n",
    ),
    ("head  ", 2, USAGE),
    (
        "head 0000FF8006",
        1,
        "error: unknown/unsupported ASN.1 DER tag: 0x00 at DER byte 1\n",
    ),
    (
        "head 31227F201FAD517904BB6BF8BC3BB534B4EF4AB43A228F2ED1411CA14D7C3EC82ACFAEDA",
        0,
        "tag: SET\nconstructed: yes\nlength: 34\nrest: 7f201fad517904bb6bf8bc3bb534b4ef4ab43a228f2ed1411ca14d7c3ec82acfaeda\n",
    ),
    ("head o0", 2, USAGE),
    (
        "head 0c243085249f825f8531dfdf051f1f31df00a0013f0185bf05803f3f833f05ffa082ff85ff80",
        0,
        "tag: UTF8String\nconstructed: no\nlength: 36\nrest: 3085249f825f8531dfdf051f1f31df00a0013f0185bf05803f3f833f05ffa082ff85ff80\n",
    ),
    ("head ٣٠", 2, USAGE),
    ("-h", 2, USAGE),
    (
        "head 7f8880808000241b001a1da0805f82055f5fdf5f30809f837f82df82a09f0031a0830582001f8284060160",
        0,
        "tag: APPLICATION [2147483648] (constructed)\nconstructed: yes\nlength: 36\nrest: 1b001a1da0805f82055f5fdf5f30809f837f82df82a09f0031a0830582001f8284060160\n",
    ),
    ("Head 30005f", 2, USAGE),
    (
        "head 301430123010300e300c300a30083006300430020500",
        0,
        "tag: SEQUENCE\nconstructed: yes\nlength: 20\nrest: 30123010300e300c300a30083006300430020500\n",
    ),
    (
        "head 01850004df0100058231",
        1,
        "error: incorrect length for BOOLEAN at DER byte 2\n",
    ),
    (
        "head 01ff",
        1,
        "error: incorrect length for BOOLEAN at DER byte 2\n",
    ),
    (
        "head 143080000031800000248a4108246595c27595d8",
        0,
        "tag: TeletexString\nconstructed: no\nlength: 48\nrest: 80000031800000248a4108246595c27595d8\n",
    ),
    (
        "head 31000000",
        0,
        "tag: SET\nconstructed: yes\nlength: 0\nrest: 0000\n",
    ),
    ("order 24023000 --ber 24023000", 2, USAGE),
    (
        "head 0422A326A139A16813C5B8A480285DECDC72599AC14C5B5F2383E02C299C404D148E31C7",
        0,
        "tag: OCTET STRING\nconstructed: no\nlength: 34\nrest: a326a139a16813c5b8a480285decdc72599ac14c5b5f2383e02c299c404d148e31c7\n",
    ),
    (
        "head 4123828500313f82a0300482838004313f1fff80a03024055f9f",
        0,
        "tag: APPLICATION [1] (primitive)\nconstructed: no\nlength: 35\nrest: 828500313f82a0300482838004313f1fff80a03024055f9f\n",
    ),
    (
        "head 21005FFF051F5F013FFF82A09F049F00837F8383A0000000",
        1,
        "error: unknown/unsupported ASN.1 DER tag: 0x21 at DER byte 1\n",
    ),
    (
        "head bfff7f82007fc05d854a861791336afb4c3624965a9c",
        1,
        "error: incorrect length for CONTEXT-SPECIFIC [16383] (constructed) at DER byte 6\n",
    ),
    (
        "head a005df",
        0,
        "tag: CONTEXT-SPECIFIC [0] (constructed)\nconstructed: yes\nlength: 5\nrest: df\n",
    ),
    ("--version", 2, USAGE),
    (
        "head 7f83bcc9db710bff8fffff7f050000000000",
        0,
        "tag: APPLICATION [932343281] (constructed)\nconstructed: yes\nlength: 11\nrest: ff8fffff7f050000000000\n",
    ),
    (
        "head 3080004D000000",
        1,
        "error: indefinite length disallowed/malformed at DER byte 2\n",
    ),
    (
        "head 9f7f05",
        0,
        "tag: CONTEXT-SPECIFIC [127] (primitive)\nconstructed: no\nlength: 5\nrest: -\n",
    ),
    (
        "head 041FBF8283FFA031FFFF9F2484835F81013080003F839F85BF0182819F01818130",
        0,
        "tag: OCTET STRING\nconstructed: no\nlength: 31\nrest: bf8283ffa031ffff9f2484835f81013080003f839f85bf0182819f01818130\n",
    ),
    ("order --BER --BER", 2, USAGE),
    (
        "head 5F8FFFFF7F8401000000",
        0,
        "tag: APPLICATION [33554431] (primitive)\nconstructed: no\nlength: 16777216\nrest: -\n",
    ),
    (
        "head 151a6159fd7b75ba449efd67700705bf5ea58bfcab404e0f8cb2f14b",
        0,
        "tag: VideotexString\nconstructed: no\nlength: 26\nrest: 6159fd7b75ba449efd67700705bf5ea58bfcab404e0f8cb2f14b\n",
    ),
    (
        "head 0A84FFFFFFFFE8",
        0,
        "tag: ENUMERATED\nconstructed: no\nlength: 4294967295\nrest: e8\n",
    ),
    ("hea 0285fd", 2, USAGE),
    (
        "head DF2084000000FF00",
        1,
        "error: incorrect length for PRIVATE [32] (primitive) at DER byte 7\n",
    ),
    (
        "head e7c69d96c8239412",
        1,
        "error: incorrect length for PRIVATE [7] (constructed) at DER byte 2\n",
    ),
    ("5F818080800082007F80", 2, USAGE),
    (
        "head 028100",
        1,
        "error: incorrect length for INTEGER at DER byte 3\n",
    ),
    (
        "head bf8fffffff7f00",
        0,
        "tag: CONTEXT-SPECIFIC [4294967295] (constructed)\nconstructed: yes\nlength: 0\nrest: -\n",
    ),
    ("tlv 04 --ber", 2, USAGE),
    (
        "head c0",
        1,
        "error: ASN.1 DER message is incomplete: expected 2, actual 1 at DER byte 1\n",
    ),
    (
        "head 0A000000",
        0,
        "tag: ENUMERATED\nconstructed: no\nlength: 0\nrest: 0000\n",
    ),
    (
        "head 7f845f05053f0484bf0005",
        0,
        "tag: APPLICATION [607] (constructed)\nconstructed: yes\nlength: 5\nrest: 053f0484bf0005\n",
    ),
    (
        "head 7F1F1FAED8FB11497F3C1AB00B7F8A03FF9233FDE681F874C51A1F0180A24A2322A4",
        0,
        "tag: APPLICATION [31] (constructed)\nconstructed: yes\nlength: 31\nrest: aed8fb11497f3c1ab00b7f8a03ff9233fde681f874c51a1f0180a24a2322a4\n",
    ),
    (
        "head 053726B56947",
        0,
        "tag: NULL\nconstructed: no\nlength: 55\nrest: 26b56947\n",
    ),
    (
        "head 7f888080800000",
        0,
        "tag: APPLICATION [2147483648] (constructed)\nconstructed: yes\nlength: 0\nrest: -\n",
    ),
    ("8481df7fbf0100", 2, USAGE),
    (
        "head 1b110000000000000000000000000000000000",
        0,
        "tag: GeneralString\nconstructed: no\nlength: 17\nrest: 0000000000000000000000000000000000\n",
    ),
    (
        "head bf818000118820cf22a35344c118d5a82dfa4e1175cf",
        0,
        "tag: CONTEXT-SPECIFIC [16384] (constructed)\nconstructed: yes\nlength: 17\nrest: 8820cf22a35344c118d5a82dfa4e1175cf\n",
    ),
    (" ", 2, USAGE),
    (
        "head 6505F056EEDF85EF281371DC606C68B5AEB6953E0AB1827F",
        0,
        "tag: APPLICATION [5] (constructed)\nconstructed: yes\nlength: 5\nrest: f056eedf85ef281371dc606c68b5aeb6953e0ab1827f\n",
    ),
    (
        "head 301ebf8fffff7f18477a1c8e24748098ffddf09c88cce16a2c45ca47e78ab0fd",
        0,
        "tag: SEQUENCE\nconstructed: yes\nlength: 30\nrest: bf8fffff7f18477a1c8e24748098ffddf09c88cce16a2c45ca47e78ab0fd\n",
    ),
    (
        "head 0c03379109",
        0,
        "tag: UTF8String\nconstructed: no\nlength: 3\nrest: 379109\n",
    ),
    (
        "head b405",
        0,
        "tag: CONTEXT-SPECIFIC [20] (constructed)\nconstructed: yes\nlength: 5\nrest: -\n",
    ),
    (
        "head BF818000129F1F0F3F0400FF30FF3080053082DF8184FF",
        0,
        "tag: CONTEXT-SPECIFIC [16384] (constructed)\nconstructed: yes\nlength: 18\nrest: 9f1f0f3f0400ff30ff3080053082df8184ff\n",
    ),
    ("HEAD 8080BE7F85837F8285", 2, USAGE),
    (
        "head bffe00",
        1,
        "error: ASN.1 DER message is incomplete: expected 4, actual 3 at DER byte 3\n",
    ),
    (
        "head ffff0100808f82007f",
        0,
        "tag: PRIVATE [16257] (constructed)\nconstructed: yes\nlength: 0\nrest: 808f82007f\n",
    ),
    (
        "head 7F20",
        1,
        "error: ASN.1 DER message is incomplete: expected 3, actual 2 at DER byte 2\n",
    ),
    (
        "head DFffFF7F0f0929e975c7B1CDC404625654d59106",
        0,
        "tag: PRIVATE [2097151] (primitive)\nconstructed: no\nlength: 15\nrest: 0929e975c7b1cdc404625654d59106\n",
    ),
    (
        "head 312377698081232DB7461FC6464C6E38EAA327936EDB87E1E016DD4D9F593ADD95DC616FE8",
        0,
        "tag: SET\nconstructed: yes\nlength: 35\nrest: 77698081232db7461fc6464c6e38eaa327936edb87e1e016dd4d9f593add95dc616fe8\n",
    ),
    ("head 30é", 2, USAGE),
    (
        "head 7f8fffffff7f051203cf8e000097",
        0,
        "tag: APPLICATION [4294967295] (constructed)\nconstructed: yes\nlength: 5\nrest: 1203cf8e000097\n",
    ),
    ("head5FFF00010181810100", 2, USAGE),
    (
        "head 7e9c",
        1,
        "error: incorrect length for APPLICATION [30] (constructed) at DER byte 2\n",
    ),
    (
        "head 9F8ffFFf7F81800233c2614a48fF7a7c712BEA201BbAbAEfD5ac63",
        0,
        "tag: CONTEXT-SPECIFIC [33554431] (primitive)\nconstructed: no\nlength: 128\nrest: 0233c2614a48ff7a7c712bea201bbabaefd5ac63\n",
    ),
    (
        "head BF",
        1,
        "error: ASN.1 DER message is incomplete: expected 2, actual 1 at DER byte 1\n",
    ),
    (
        "head BffF7F81",
        1,
        "error: ASN.1 DER message is incomplete: expected 5, actual 4 at DER byte 4\n",
    ),
    (
        "head 9fa005008385300a97",
        0,
        "tag: CONTEXT-SPECIFIC [4101] (primitive)\nconstructed: no\nlength: 0\nrest: 8385300a97\n",
    ),
    ("head2420", 2, USAGE),
    (
        "head 0da3f0b3",
        1,
        "error: incorrect length for RELATIVE OID at DER byte 2\n",
    ),
    (
        "head 78A116F808DD45",
        1,
        "error: incorrect length for APPLICATION [24] (constructed) at DER byte 2\n",
    ),
    (
        "head 140d00000000000000000000000000",
        0,
        "tag: TeletexString\nconstructed: no\nlength: 13\nrest: 00000000000000000000000000\n",
    ),
    (
        "head 308030808200FF",
        1,
        "error: indefinite length disallowed/malformed at DER byte 2\n",
    ),
];
