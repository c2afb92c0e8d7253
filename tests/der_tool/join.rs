//! Tests of the command `join`: an OCTET STRING, and its joined segments.
use super::{USAGE, replay};
use std::test::Fail;

#[test]
fn prints_what_segments_are_joined_to(rt: HostRuntime) -> Result<(), Fail> {
    let rows = [
        ("join 24040402AABB", 0, "aabb\n"),
        ("join 0402AABB", 0, "aabb\n"),
        ("join 0402aabb", 0, "aabb\n"),
        ("join 2400", 0, "-\n"),
        ("join 0400", 0, "-\n"),
        ("join 24800000", 0, "-\n"),
        ("join 248024800401AA00000401BB0000", 0, "aabb\n"),
        ("join 248024030401AA0000", 0, "aa\n"),
        ("join 2480248000000000", 0, "-\n"),
    ];
    replay(&rt, &rows)
}

#[test]
fn refuses_what_is_no_octet_string(rt: HostRuntime) -> Result<(), Fail> {
    let rows = [
        (
            "join 3000",
            1,
            "error: unexpected ASN.1 DER tag: expected OCTET STRING, got SEQUENCE\n",
        ),
        (
            "join 24020500",
            1,
            "error: unexpected ASN.1 DER tag: expected OCTET STRING, got NULL\n",
        ),
        (
            "join 240424030400",
            1,
            "error: ASN.1 DER message is incomplete: expected 7, actual 6 at DER byte 6\n",
        ),
        (
            "join 240524800401AA",
            1,
            "error: ASN.1 DER message is incomplete: expected 8, actual 7 at DER byte 7\n",
        ),
        (
            "join 0402AABBCC",
            1,
            "error: trailing data at end of DER message: decoded 4 bytes, 1 bytes remaining at DER \
            byte 4\n",
        ),
        (
            "join ",
            1,
            "error: ASN.1 DER message is incomplete: expected 1, actual 0 at DER byte 0\n",
        ),
        (
            "join 0480",
            1,
            "error: ASN.1 DER message is incomplete: expected 3, actual 2 at DER byte 2\n",
        ),
    ];
    replay(&rt, &rows)
}

/// 64 OCTET STRINGs of definite lengths, nested in one another, in hexadecimal. The innermost is
/// empty.
const DEEPEST: &str = "247e247c247a24782476247424722470246e246c246a24682466246424622460\
    245e245c245a24582456245424522450244e244c244a24482446244424422440\
    243e243c243a24382436243424322430242e242c242a24282426242424222420\
    241e241c241a24182416241424122410240e240c240a24082406240424022400";

/// 64 headers of constructed OCTET STRINGs of indefinite lengths, in hexadecimal.
const OPENED: &str = "2480248024802480248024802480248024802480248024802480248024802480\
    2480248024802480248024802480248024802480248024802480248024802480\
    2480248024802480248024802480248024802480248024802480248024802480\
    2480248024802480248024802480248024802480248024802480248024802480";

/// The two end-of-contents octets, 64 times, in hexadecimal: two for each header in [`OPENED`].
const CLOSED: &str = "0000000000000000000000000000000000000000000000000000000000000000\
    0000000000000000000000000000000000000000000000000000000000000000\
    0000000000000000000000000000000000000000000000000000000000000000\
    0000000000000000000000000000000000000000000000000000000000000000";

// 64 levels are joined; the 65th fails after its header, which a scan has not yet read if it is
// inside a definite length.
#[test]
fn joins_64_levels_and_refuses_the_65th(rt: HostRuntime) -> Result<(), Fail> {
    let alloc = rt.alloc();
    replay(
        &rt,
        &[(format!(in alloc; "join {DEEPEST}")?.as_str(), 0, "-\n")],
    )?;
    replay(
        &rt,
        &[(
            format!(in alloc; "join {OPENED}{CLOSED}")?.as_str(),
            0,
            "-\n",
        )],
    )?;
    let rows = [
        (format!(in alloc; "join 248180{DEEPEST}")?, 131),
        (format!(in alloc; "join 2480{OPENED}{CLOSED}0000")?, 130),
        (format!(in alloc; "join 24820100{OPENED}{CLOSED}")?, 132),
    ];
    for (line, position) in &rows {
        let text = format!(in alloc;
            "error: too many nested productions encountered at DER byte {position}\n"
        )?;
        replay(&rt, &[(line.as_str(), 1, text.as_str())])?;
    }
    Ok(())
}

#[test]
fn prints_the_usage_of_other_joins(rt: HostRuntime) -> Result<(), Fail> {
    let lines = [
        "join",
        "join 0",
        "join 040",
        "join +1",
        "join 0400 0400",
        "join --ber",
        "join --ber 0400",
        "join 0400 ",
        "Join 0400",
        "joins 0400",
    ];
    for line in lines {
        replay(&rt, &[(line, 2, USAGE)])?;
    }
    Ok(())
}
