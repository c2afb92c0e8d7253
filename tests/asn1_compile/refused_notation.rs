//! Notation that X.680 forbids: commas, extension marks, digits, names.
use super::refusals::{accepts, module, refusal, refuses};
use crate::checks::same_at;
use std::test::Fail;

#[test]
fn commas_and_extension_marks(rt: HostRuntime) -> Result<(), Fail> {
    let alloc = rt.alloc();
    for (body, place) in [
        ("A ::= SEQUENCE { a NULL, }", (2, 26, "}")),
        ("A ::= CHOICE { a NULL, ..., }", (2, 29, "}")),
        ("A ::= SEQUENCE { a NULL, ..., b NULL, ..., c NULL, ... }", (2, 52, "...")),
        ("A ::= CHOICE { a NULL, ..., b INTEGER, ..., c BOOLEAN }", (2, 45, "c")),
        ("A ::= CHOICE { ..., a NULL }", (2, 16, "...")),
        ("A ::= CHOICE { ... }", (2, 16, "...")),
        ("A ::= CHOICE { a NULL OPTIONAL }", (2, 23, "OPTIONAL")),
        ("A ::= ENUMERATED { a, ..., b, ... }", (2, 31, "...")),
        ("A ::= ENUMERATED { ..., a }", (2, 20, "...")),
        ("A ::= INTEGER { a(1), ... }", (2, 23, "...")),
        ("A ::= ENUMERATED { a, b, ..., c(0) }", (2, 31, "c")),
        ("A ::= ENUMERATED { a, b, ..., c, d(2) }", (2, 34, "d")),
        ("A ::= ENUMERATED { a, b, ..., d(7), c(5) }", (2, 37, "c")),
    ] {
        refuses(&rt, alloc, body, place)?;
    }
    accepts(&rt, alloc, "A ::= SEQUENCE { a NULL, ..., b INTEGER, ..., c BOOLEAN }")?;
    accepts(&rt, alloc, "A ::= CHOICE { a NULL, ..., b INTEGER, ... }")?;
    accepts(&rt, alloc, "A ::= ENUMERATED { a, b(3), ..., c(1) }")?;
    Ok(())
}

#[test]
fn additions_have_no_tags_where_tags_are_automatic(rt: HostRuntime) -> Result<(), Fail> {
    let alloc = rt.alloc();
    for (body, place) in [
        ("A ::= SEQUENCE { a NULL, ..., b [1] NULL }", Some((2, 31, "b"))),
        ("A ::= CHOICE { a NULL, ..., b [1] NULL }", Some((2, 29, "b"))),
        ("A ::= SEQUENCE { a [0] NULL, ..., b [1] NULL }", None),
    ] {
        let text = module(alloc, "AUTOMATIC", body)?;
        same_at(&rt, body, refusal(alloc, &text), place);
    }
    Ok(())
}

#[test]
fn digits_and_names(rt: HostRuntime) -> Result<(), Fail> {
    let alloc = rt.alloc();
    for (body, place) in [
        ("a OCTET STRING ::= 'XY'H", (2, 20, "'XY'H")),
        ("a OCTET STRING ::= 'ab'H", (2, 20, "'ab'H")),
        ("a BIT STRING ::= '012'B", (2, 18, "'012'B")),
        ("a INTEGER ::= 007", (2, 15, "007")),
        ("A ::= INTEGER (1..05)", (2, 19, "05")),
        ("a OBJECT IDENTIFIER ::= { iso(2) 3 }", (2, 31, "2")),
        ("a OBJECT IDENTIFIER ::= { iso(1) member-body(3) 4 }", (2, 46, "3")),
        ("A ::= SEQUENCE { a NULL, b ANY DEFINED BY kind }", (2, 43, "kind")),
        ("A ::= SEQUENCE { kind NULL, b SEQUENCE { c ANY DEFINED BY kind } }", (2, 59, "kind")),
        ("A ::= ANY DEFINED BY kind", (2, 22, "kind")),
    ] {
        refuses(&rt, alloc, body, place)?;
    }
    accepts(&rt, alloc, "A ::= SEQUENCE { kind NULL, b SET OF ANY DEFINED BY kind }")?;
    accepts(&rt, alloc, "a INTEGER ::= 0\nb BIT STRING ::= '01 10'B\nc OCTET STRING ::= '0 AF'H")?;
    Ok(())
}

#[test]
fn exports_and_imports(rt: HostRuntime) -> Result<(), Fail> {
    let alloc = rt.alloc();
    for (text, place) in [
        ("M DEFINITIONS ::= BEGIN EXPORTS B; A ::= NULL END", Some((1, 33, "B"))),
        ("M DEFINITIONS ::= BEGIN EXPORTS A, a; A ::= NULL END", Some((1, 36, "a"))),
        ("M DEFINITIONS ::= BEGIN EXPORTS ALL; A ::= NULL END", None),
        ("M DEFINITIONS ::= BEGIN IMPORTS A FROM N value; B ::= A END", Some((1, 40, "N"))),
        ("M DEFINITIONS ::= BEGIN IMPORTS A{}, a FROM N; B ::= A END", Some((1, 45, "N"))),
        ("M DEFINITIONS ::= BEGIN IMPORTS A{1} FROM N; B ::= A END", Some((1, 35, "1"))),
        ("M DEFINITIONS ::= BEGIN IMPORTS A FROM N { 1 2 } WITH SUCCESSORS; B ::= A END", Some((1, 40, "N"))),
    ] {
        same_at(&rt, text, refusal(alloc, text), place);
    }
    Ok(())
}

#[test]
fn a_type_of_the_loop_is_named(rt: HostRuntime) -> Result<(), Fail> {
    let alloc = rt.alloc();
    refuses(&rt, alloc, "A ::= SEQUENCE { a C }\nB ::= CHOICE { c C }\nC ::= SET OF [0] B", (3, 1, "B"))?;
    refuses(&rt, alloc, "A ::= SEQUENCE { a NULL, f F }\nF ::= CHOICE { a NULL, f [0] F }", (3, 1, "F"))?;
    Ok(())
}
