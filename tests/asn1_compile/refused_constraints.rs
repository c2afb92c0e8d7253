//! Constraints and defaults that are no values of their types, which X.680 forbids.
use super::refusals::{accepts, module, place_of, refuses};
use crate::checks::same_at;
use asn1_output::compile;
use std::test::Fail;

#[test]
fn constraints_are_those_of_their_types(rt: HostRuntime) -> Result<(), Fail> {
    let alloc = rt.alloc();
    for (body, place) in [
        ("A ::= INTEGER (5..2)", (2, 16, "5")),
        ("A ::= INTEGER (-1..-2)", (2, 16, "-")),
        ("A ::= INTEGER (MAX..MIN)", (2, 16, "MAX")),
        ("A ::= INTEGER (1..3) (5..9)", (2, 23, "5")),
        ("A ::= B (5..9)\nB ::= INTEGER (1..3)", (2, 10, "5")),
        ("A ::= INTEGER (SIZE (1..2))", (2, 22, "1")),
        ("A ::= BOOLEAN (0..2)", (2, 16, "0")),
        ("A ::= UTF8String (1..2)", (2, 19, "1")),
        ("A ::= OCTET STRING (SIZE (5..2))", (2, 27, "5")),
        ("A ::= OCTET STRING (SIZE (-1..2))", (2, 27, "-")),
        ("A ::= UTCTime (SIZE (13))", (2, 22, "13")),
        ("A ::= SEQUENCE SIZE (2..1) OF NULL", (2, 22, "2")),
        ("A ::= INTEGER (CONTAINING BOOLEAN)", (2, 7, "INTEGER")),
        ("A ::= BIT STRING { a(0) } (CONTAINING BOOLEAN)", (2, 7, "BIT")),
    ] {
        refuses(&rt, alloc, body, place)?;
    }
    for body in [
        "A ::= INTEGER (1..10) (5..20)",
        "A ::= OBJECT IDENTIFIER (a)\na OBJECT IDENTIFIER ::= { 1 2 }",
        "A ::= ENUMERATED { a, b } (a)",
        "A ::= BIT STRING (SIZE (0..MAX)) (CONTAINING NULL)",
        "A ::= INTEGER (0..5, ...) (3)",
    ] {
        accepts(&rt, alloc, body)?;
    }
    Ok(())
}

#[test]
fn defaults_are_values_of_their_types(rt: HostRuntime) -> Result<(), Fail> {
    let alloc = rt.alloc();
    for (body, place) in [
        ("A ::= SEQUENCE { a INTEGER (0..5) DEFAULT 6 }", (2, 43, "6")),
        ("A ::= SEQUENCE { a INTEGER (0..5) DEFAULT -1 }", (2, 43, "-")),
        ("A ::= SEQUENCE { a B DEFAULT 6 }\nB ::= INTEGER (0..5)", (2, 30, "6")),
        ("A ::= SEQUENCE { a INTEGER { b(0), c(1) } (0..1) DEFAULT 2 }", (2, 58, "2")),
        ("A ::= SEQUENCE { a ENUMERATED { b, c } DEFAULT d }", (2, 48, "d")),
        ("A ::= SEQUENCE { a INTEGER DEFAULT 18446744073709551616 }", (2, 36, "18446744073709551616")),
        ("A ::= SEQUENCE { a SEQUENCE { b NULL } DEFAULT {} }", (2, 48, "{")),
        ("A ::= SEQUENCE { a NULL, b NULL, c NULL, d NULL, e NULL, f NULL, g NULL, h NULL, i NULL, j NULL, k NULL }", (2, 7, "SEQUENCE")),
    ] {
        let text = module(alloc, "EXPLICIT", body)?;
        let answer = match compile(alloc, &Vec::new(alloc), text.as_str(), "own", &["A"]) {
            Ok(_) => None,
            Err(failure) => Some(place_of(text.as_str(), failure)),
        };
        same_at(&rt, body, answer, Some(place));
    }
    Ok(())
}
