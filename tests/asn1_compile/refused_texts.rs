//! Texts that are no modules, and forms that are not supported.
use super::refusals::{refusal, refuses};
use crate::checks::same_at;
use std::test::Fail;

#[test]
fn texts_that_are_no_modules(rt: HostRuntime) -> Result<(), Fail> {
    let alloc = rt.alloc();
    let end = "the end of the file";
    for (text, place) in [
        ("", (1, 1, end)),
        ("m DEFINITIONS ::= BEGIN END", (1, 1, "m")),
        ("M ::= BEGIN END", (1, 3, "::=")),
        ("M DEFINITIONS EXPLICIT ::= BEGIN END", (1, 24, "::=")),
        ("M DEFINITIONS ::=\nEND", (2, 1, "END")),
        ("M DEFINITIONS ::= BEGIN\n  EXPORTS 1; END", (2, 11, "1")),
        ("M DEFINITIONS ::= BEGIN\n IMPORTS A; END", (2, 11, ";")),
        ("M DEFINITIONS ::= BEGIN\n IMPORTS A FROM n; END", (2, 17, "n")),
        ("M DEFINITIONS ::= BEGIN A ::= NULL", (1, 35, end)),
        ("M DEFINITIONS ::= BEGIN END B", (1, 29, "B")),
        ("M DEFINITIONS ::= BEGIN # END", (1, 25, "#")),
        ("M DEFINITIONS ::= BEGIN\n/* no end", (2, 1, "/")),
        ("M DEFINITIONS ::= BEGIN\na T ::= \"no end", (2, 9, "\"")),
        ("M DEFINITIONS ::= BEGIN\na T ::= '01'C END", (2, 9, "'")),
    ] {
        same_at(&rt, text, refusal(alloc, text), Some(place));
    }
    Ok(())
}

#[test]
fn assignments_that_are_wrong(rt: HostRuntime) -> Result<(), Fail> {
    let alloc = rt.alloc();
    for (body, place) in [
        ("A NULL", (2, 3, "NULL")),
        ("A ::= null", (2, 7, "null")),
        ("A ::= OCTET", (3, 1, "END")),
        ("A ::= SEQUENCE { a NULL b NULL }", (2, 25, "b")),
        ("A ::= SEQUENCE { A NULL }", (2, 18, "A")),
        ("A ::= SEQUENCE OF", (3, 1, "END")),
        ("A ::= [x] NULL", (2, 8, "x")),
        ("A ::= INTEGER { a(b }", (2, 21, "}")),
        ("A ::= INTEGER (1..)", (2, 19, ")")),
        ("A ::= INTEGER (18446744073709551616)", (2, 16, "18446744073709551616")),
        ("a INTEGER 1", (2, 11, "1")),
        ("a INTEGER ::= }", (2, 15, "}")),
        ("a OBJECT IDENTIFIER ::= { 1 2", (4, 1, "the end of the file")),
    ] {
        refuses(&rt, alloc, body, place)?;
    }
    Ok(())
}

#[test]
fn forms_that_are_not_supported(rt: HostRuntime) -> Result<(), Fail> {
    let alloc = rt.alloc();
    for (body, place) in [
        ("A ::= SEQUENCE OF CLASS { &id NULL }", (2, 19, "CLASS")),
        ("SET ::= NULL", (2, 1, "SET")),
        ("UTCTime ::= NULL", (2, 1, "UTCTime")),
        ("A ::= B { NULL }", (2, 7, "B")),
        ("A ::= B.&id", (2, 7, "B")),
        ("A ::= SET { a NULL, b NULL }", (2, 21, "b")),
        ("A ::= SEQUENCE { COMPONENTS OF B }", (2, 32, "B")),
        ("A { T } ::= SEQUENCE { a A { T } OPTIONAL } B ::= A { NULL }", (2, 51, "A")),
        ("A ::= SEQUENCE { COMPONENTS OF A }", (2, 32, "{")),
        ("A ::= SEQUENCE { a NULL, [[ b NULL ]] }", (2, 26, "[[")),
        ("A ::= SEQUENCE { a NULL, ..., [[ b NULL }", (2, 41, "}")),
        ("A ::= SEQUENCE { a NULL, ..., [[ b NULL, [[ c NULL ]] ]] }", (2, 42, "[[")),
        ("A ::= SEQUENCE { a NULL, ..., b NULL ]] }", (2, 38, "]]")),
        ("A ::= SEQUENCE { a EXTERNAL DEFAULT 1.5 }", (2, 20, "EXTERNAL")),
        ("A B ::= { b }", (2, 3, "B")),
        ("A ::= UniversalString", (2, 7, "UniversalString")),
        ("A ::= SEQUENCE { a EXTERNAL }", (2, 20, "EXTERNAL")),
    ] {
        refuses(&rt, alloc, body, place)?;
    }
    Ok(())
}
