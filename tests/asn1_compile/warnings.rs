//! What types of Rust do not check or do not have, and names that are others.
use super::refusals::{compiled, has_text, module};
use crate::checks::same_at;
use asn1_output::compile;
use asn1_syntax::Position;
use std::test::Fail;

#[test]
fn nothing_is_left_out_without_a_warning(rt: HostRuntime) -> Result<(), Fail> {
    let alloc = rt.alloc();
    for (body, place) in [
        ("A ::= OCTET STRING (SIZE (4))", Some((2, 27, "4"))),
        ("A ::= INTEGER (0..MAX)", Some((2, 16, "0"))),
        ("A ::= INTEGER (-1..5)", Some((2, 16, "-"))),
        ("A ::= INTEGER (0..5)", None),
        ("A ::= INTEGER (0..5, ...)", None),
        ("A ::= INTEGER (MIN..MAX)", None),
        ("A ::= INTEGER (0..MAX) (MIN..7)", None),
        ("A ::= INTEGER (0..MAX) (1..MAX)", Some((2, 16, "0"))),
        ("A ::= ENUMERATED { a, b } (a)", Some((2, 28, "a"))),
        ("A ::= ENUMERATED { a(-1), b }", Some((2, 7, "ENUMERATED"))),
        ("A ::= ENUMERATED { a, ... }", None),
        ("-- Rust extensions: refused\nA ::= ENUMERATED { a, ... }", Some((3, 23, "..."))),
        ("A ::= ENUMERATED { a(-1), b, ... }", Some((2, 7, "ENUMERATED"))),
        ("A ::= SEQUENCE { a NULL, ... }", None),
        ("-- Rust extensions: refused\nA ::= SEQUENCE { a NULL, ... }", Some((3, 26, "..."))),
        ("A ::= CHOICE { a NULL, ..., b BOOLEAN, ... }", None),
        ("-- Rust extensions: refused\nA ::= CHOICE { a NULL, ..., b BOOLEAN, ... }", Some((3, 24, "..."))),
        ("A ::= SEQUENCE { a ANY OPTIONAL, ... }", Some((2, 34, "..."))),
        ("A ::= SEQUENCE { a CHOICE { b NULL, ... } OPTIONAL }", Some((2, 37, "..."))),
        ("A ::= SEQUENCE { a CHOICE { b NULL, ... } }", None),
        ("A ::= OCTET STRING (CONTAINING B)\nB ::= CHOICE { a NULL }", Some((2, 7, "OCTET"))),
        ("a UTF8String ::= \"abc\"", Some((2, 1, "a"))),
        ("a SEQUENCE { x INTEGER } ::= { x 1 }", Some((2, 1, "a"))),
        ("Error ::= SEQUENCE { a NULL }", Some((2, 1, "Error"))),
        ("A ::= SEQUENCE { a-bc NULL, aBc NULL }", Some((2, 29, "aBc"))),
        ("A ::= ENUMERATED { a-bc, aBc }", Some((2, 26, "aBc"))),
        ("A-b ::= NULL\nAB ::= BOOLEAN", Some((3, 1, "AB"))),
        ("id-one OBJECT IDENTIFIER ::= { 1 2 }\nidOne OBJECT IDENTIFIER ::= { 1 3 }", Some((3, 1, "idOne"))),
    ] {
        let text = module(alloc, "EXPLICIT", body)?;
        match compile(alloc, &Vec::new(alloc), &text, "own", &[]) {
            Ok(compiled) => {
                let first = compiled.warnings.first().map(|warning| {
                    let position = Position::of(text.as_str().as_bytes(), warning.offset);
                    (position.line, position.column, warning.found)
                });
                same_at(&rt, body, first, place);
            }
            Err(_) => same_at(&rt, body, "refused", "compiled"),
        }
    }
    Ok(())
}

#[test]
fn names_that_would_be_the_same_get_numbers(rt: HostRuntime) -> Result<(), Fail> {
    let alloc = rt.alloc();
    for (body, file, line) in [
        ("A ::= SEQUENCE { a SEQUENCE { x NULL } }\nAA ::= SEQUENCE { y NULL }", "src/asn1/aa2.rt", "pub struct AA2<'a> {"),
        ("ABC ::= SEQUENCE { y NULL }\nA-b-C ::= SEQUENCE { y NULL }", "src/asn1/abc2.rt", "pub struct ABC2<'a> {"),
        ("A ::= SEQUENCE { x [0] C }\nC ::= CHOICE { a NULL }\nCTagged ::= SEQUENCE { y NULL }", "src/asn1/c_tagged2.rt", "pub struct CTagged2<'a> {"),
        ("Error ::= SEQUENCE { a NULL }\nA ::= SEQUENCE { e Error }", "src/asn1/a.rt", "pub e: Error_<'a>,"),
        ("A ::= CHOICE { self NULL, b BOOLEAN }", "src/asn1/a.rt", "    Self_(Null<'a>),"),
        ("A ::= ENUMERATED { self, b }", "src/asn1/a.rt", "    Self_ = 0,"),
        ("A ::= SEQUENCE { a-bc NULL, aBc NULL }", "src/asn1/a.rt", "pub a_bc_2: Null<'a>,"),
        ("id-one OBJECT IDENTIFIER ::= { 1 2 }\nidOne OBJECT IDENTIFIER ::= { 1 3 }", "src/asn1/values.rt", "pub fn id_one_2() -> ObjectIdentifierRef<'static>"),
        ("B ::= SEQUENCE { z INTEGER (0..5) DEFAULT 1 }\nC ::= SEQUENCE { b B }", "src/asn1/c.rt", "pub b: B,"),
        ("B ::= SEQUENCE {\n-- Rust integer: u64\nz INTEGER DEFAULT 1 }\nC ::= SEQUENCE { b B }", "src/asn1/c.rt", "pub b: B,"),
    ] {
        let text = module(alloc, "EXPLICIT", body)?;
        match compiled(alloc, &Vec::new(alloc), &text) {
            Ok(files) => has_text(&rt, &files, file, line),
            Err(place) => same_at(&rt, body, Some(place), None),
        }
    }
    Ok(())
}
