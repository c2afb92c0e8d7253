//! Names that are not defined, or defined twice, and types that contain themselves.
use super::refusals::refuses;
use std::test::Fail;

#[test]
fn names_are_defined_once(rt: HostRuntime) -> Result<(), Fail> {
    let alloc = rt.alloc();
    for (body, place) in [
        ("A ::= B", (2, 7, "B")),
        ("A ::= SEQUENCE {\n  a NULL,\n  b SET OF B }", (4, 12, "B")),
        ("A ::= NULL\nB ::= NULL\nA ::= B", (4, 1, "A")),
        ("a NULL ::= NULL\n a NULL ::= NULL", (3, 2, "a")),
        ("A ::= SEQUENCE { a NULL, b NULL, a NULL }", (2, 34, "a")),
        ("A ::= CHOICE { a [0] NULL, a [1] NULL }", (2, 28, "a")),
        ("A ::= ENUMERATED { a(0), b(1), a(2) }", (2, 32, "a")),
        ("A ::= ENUMERATED { a(0), b(1), c(1) }", (2, 32, "c")),
        ("A ::= INTEGER { a(b) }", (2, 19, "b")),
        ("A ::= BIT STRING { a }", (2, 20, "a")),
    ] {
        refuses(&rt, alloc, body, place)?;
    }
    Ok(())
}

#[test]
fn no_type_contains_itself(rt: HostRuntime) -> Result<(), Fail> {
    let alloc = rt.alloc();
    for (body, place) in [
        ("A ::= A", (2, 1, "A")),
        ("A ::= SEQUENCE OF A", (2, 1, "A")),
        ("A ::= NULL\nB ::= CHOICE { a A, c C }\nC ::= SET OF [0] B", (3, 1, "B")),
        ("A ::= OCTET STRING (CONTAINING A)", (2, 1, "A")),
        ("A ::= SEQUENCE { a A OPTIONAL }", (2, 1, "A")),
    ] {
        refuses(&rt, alloc, body, place)?;
    }
    Ok(())
}
