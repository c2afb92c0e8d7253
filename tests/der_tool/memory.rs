//! Tests of commands whose allocations fail.
use super::{USAGE, words_of};
use der_tool_lib::respond;
use linked_list_allocator::LocalHeap;
use std::process::Abort;
use std::test::Fail;

const REFUSED: &str = "error: out of memory\n";

/// Runs the command in `line` repeatedly, each time on a larger heap. On the smallest heaps an
/// early allocation fails, on larger ones a later allocation, and on the largest none. Each run
/// must return `status` and print `text`, or return the status 1 and print [`REFUSED`]. Returns how
/// many runs printed [`REFUSED`].
fn refuse_in_turn(
    rt: &(impl Abort + AllocGlobal),
    line: &str,
    status: u8,
    text: &str,
) -> Result<usize, Fail> {
    let words = words_of(rt.alloc(), line)?;
    let mut refused = 0usize;
    for step in 1..257 {
        let heap = LocalHeap::new(rt.alloc(), step * 16)?;
        let mut out = Vec::new(rt.alloc());
        let got = respond(rt.alloc(), &heap, &words, &mut out)?;
        if out.as_slice() == text.as_bytes() {
            assert_eq!(rt; got, status, "at {step}");
        } else {
            assert_eq!(rt; got, 1, "at {step}");
            assert!(rt; out.as_slice() == REFUSED.as_bytes(), "at {step}");
            refused = refused.saturating_add(1);
        }
        assert_eq!(rt; heap.used(), 0, "at {step}");
    }
    Ok(refused)
}

#[test]
fn refuses_each_growth_in_turn(rt: HostRuntime) -> Result<(), Fail> {
    let lines = "tag: INTEGER\nconstructed: no\nlength: 1\nrest: 2a00\n";
    let reported = refuse_in_turn(&rt, "head 02012A00", 0, lines)?;
    assert!(rt; 0 < reported && reported < 256, "{reported}");
    let line = "error: incorrect length for OCTET STRING at DER byte 3\n";
    let refused = refuse_in_turn(&rt, "head 04817F", 1, line)?;
    assert!(rt; 0 < refused && refused < 256, "{refused}");
    Ok(())
}

#[test]
fn refuses_each_growth_for_an_element_in_turn(rt: HostRuntime) -> Result<(), Fail> {
    let reported = refuse_in_turn(&rt, "tlv 02012A00", 0, "02012a\n")?;
    assert!(rt; 0 < reported && reported < 256, "{reported}");
    let line = "error: ASN.1 DER message is incomplete: expected 4, actual 2 at DER byte 0\n";
    let refused = refuse_in_turn(&rt, "tlv 3002", 1, line)?;
    assert!(rt; 0 < refused && refused < 256, "{refused}");
    Ok(())
}

#[test]
fn refuses_each_growth_by_ber_in_turn(rt: HostRuntime) -> Result<(), Fail> {
    let lines = "tag: SEQUENCE\nconstructed: yes\nlength: 2 indefinite\nrest: 0000\n";
    let reported = refuse_in_turn(&rt, "head --ber 30800000", 0, lines)?;
    assert!(rt; 0 < reported && reported < 256, "{reported}");
    let reported = refuse_in_turn(&rt, "tlv --ber 30800000", 0, "30800000\n")?;
    assert!(rt; 0 < reported && reported < 256, "{reported}");
    let line = "error: ASN.1 DER message is incomplete: expected 3, actual 2 at DER byte 2\n";
    let refused = refuse_in_turn(&rt, "head --ber 3080", 1, line)?;
    assert!(rt; 0 < refused && refused < 256, "{refused}");
    Ok(())
}

#[test]
fn refuses_each_growth_for_two_elements_in_turn(rt: HostRuntime) -> Result<(), Fail> {
    let reported = refuse_in_turn(&rt, "order 02012A 3000", 0, "less\n")?;
    assert!(rt; 0 < reported && reported < 256, "{reported}");
    let line = "error: ASN.1 DER message is incomplete: expected 3, actual 2 at DER byte 2\n";
    let refused = refuse_in_turn(&rt, "order 3000 0405", 1, line)?;
    assert!(rt; 0 < refused && refused < 256, "{refused}");
    Ok(())
}

// The segments are joined in other memory, for which `.ci/refused_memory` makes each allocation
// fail.
#[test]
fn refuses_each_growth_for_segments_in_turn(rt: HostRuntime) -> Result<(), Fail> {
    let reported = refuse_in_turn(&rt, "join 240524030401AA", 0, "aa\n")?;
    assert!(rt; 0 < reported && reported < 256, "{reported}");
    let line = "error: unexpected ASN.1 DER tag: expected OCTET STRING, got NULL\n";
    let refused = refuse_in_turn(&rt, "join 240424020500", 1, line)?;
    assert!(rt; 0 < refused && refused < 256, "{refused}");
    Ok(())
}

// The words are checked without allocating.
#[test]
fn prints_the_usage_without_memory(rt: HostRuntime) -> Result<(), Fail> {
    assert_eq!(rt; refuse_in_turn(&rt, "head 0", 2, USAGE)?, 0);
    assert_eq!(rt; refuse_in_turn(&rt, "tlv 0", 2, USAGE)?, 0);
    assert_eq!(rt; refuse_in_turn(&rt, "tlv --ber 0", 2, USAGE)?, 0);
    assert_eq!(rt; refuse_in_turn(&rt, "order 3000 0", 2, USAGE)?, 0);
    assert_eq!(rt; refuse_in_turn(&rt, "join 0", 2, USAGE)?, 0);
    Ok(())
}
