//! Tags that are not distinct (X.680, 25.6 and 29.3).
use super::refusals::{accepts, refuses};
use std::test::Fail;

#[test]
fn tags_of_alternatives_are_distinct(rt: HostRuntime) -> Result<(), Fail> {
    let alloc = rt.alloc();
    for (body, place) in [
        ("A ::= CHOICE { a NULL, b NULL }", (2, 24, "b")),
        ("A ::= CHOICE { a [0] NULL, b [0] UTCTime }", (2, 28, "b")),
        ("A ::= CHOICE { a B, b UTCTime }\nB ::= CHOICE { c NULL, d UTCTime }", (2, 21, "b")),
        ("A ::= CHOICE { a NULL, b ANY }", (2, 24, "b")),
        ("A ::= CHOICE { a SEQUENCE { }, b SEQUENCE OF NULL }", (2, 32, "b")),
        ("A ::= CHOICE { a [0] NULL, b B }\nB ::= [0] NULL", (2, 28, "b")),
    ] {
        refuses(&rt, alloc, body, place)?;
    }
    accepts(&rt, alloc, "A ::= CHOICE { a [0] NULL, b [APPLICATION 0] NULL, c [PRIVATE 0] NULL }")?;
    Ok(())
}

#[test]
fn tags_behind_optional_components_are_distinct(rt: HostRuntime) -> Result<(), Fail> {
    let alloc = rt.alloc();
    for (body, place) in [
        ("A ::= SEQUENCE { a NULL OPTIONAL, b NULL }", (2, 35, "b")),
        ("A ::= SEQUENCE { a NULL DEFAULT NULL, b NULL }", (2, 39, "b")),
        ("A ::= SEQUENCE { a NULL OPTIONAL, b BOOLEAN OPTIONAL, c NULL }", (2, 55, "c")),
        ("A ::= SEQUENCE { a ANY OPTIONAL, b NULL }", (2, 34, "b")),
        ("A ::= SEQUENCE { a NULL OPTIONAL, b ANY }", (2, 35, "b")),
        ("A ::= SEQUENCE { a [0] IMPLICIT CHOICE { b NULL } }", (2, 20, "[")),
    ] {
        refuses(&rt, alloc, body, place)?;
    }
    accepts(&rt, alloc, "A ::= SEQUENCE { a NULL OPTIONAL, b BOOLEAN, c NULL, d ANY OPTIONAL }")?;
    Ok(())
}
