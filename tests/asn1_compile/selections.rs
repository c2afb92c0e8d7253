//! What is compiled of a module that has forms which are not supported.
use super::refusals::{has_text, module, place_of};
use crate::checks::{same, same_at};
use asn1_output::{Compiled, compile};
use asn1_syntax::Position;
use std::alloc::{AllocError, Global};
use std::process::Abort;
use std::test::Fail;

// Classes, objects, sets, parameters, macros and values, between types that are compiled.
const MIXED: &str = "FIRST ::= CLASS { &id OBJECT IDENTIFIER UNIQUE, &Type } WITH SYNTAX { TYPE &Type [ID &id] }
one NULL ::= NULL
first FIRST ::= { TYPE NULL ID { 1 2 } }
Firsts FIRST ::= { first | second, ... }
Kind ::= BOOLEAN
Held { FIRST:Set } ::= SEQUENCE { id FIRST.&id ({Set}), value FIRST.&Type ({Set}{@id}) }
second FIRST ::= { TYPE BOOLEAN ID { 1 3 } }
Holder ::= Held {{ Firsts }}
Pair ::= SEQUENCE { kind Kind, text UTF8String (SIZE (1..8) ^ FROM (\"a\"..\"z\")) }
FIELD MACRO ::= BEGIN TYPE NOTATION ::= type (TYPE Kind) VALUE NOTATION ::= value (VALUE Kind) END
Whole ::= SEQUENCE { pair Pair, COMPONENTS OF Pair }
Items ::= SET OF Holder
three INTEGER ::= 3
Set ::= SET { a NULL, b BOOLEAN }
Part ::= Kind (WITH COMPONENTS { a PRESENT })
Long ::= Kind (three | four)
four INTEGER ::= 4
Real ::= EXTERNAL
Uses ::= SEQUENCE { kind Kind, real Real }
dial OPERATION ARGUMENT Kind ::= 5
Ring ::= [APPLICATION 1] SEQUENCE { next Ring OPTIONAL }
Text ::= [UNIVERSAL 12] IMPLICIT OCTET STRING";

// The names that are left out, with the lines of what is not supported, in their order.
fn left_out<'c>(alloc: Global, compiled: &'c Compiled<'_>, text: &str) -> Result<Vec<(&'c str, usize)>, AllocError> {
    let mut found = Vec::new(alloc);
    for warning in compiled.warnings.iter() {
        if let Some((name, _)) = warning.text.as_str().split_once(" is left out: ") {
            found.push((name, Position::of(text.as_bytes(), warning.offset).line))?;
        }
    }
    Ok(found)
}

#[test]
fn what_is_supported_is_compiled(rt: HostRuntime) -> Result<(), Fail> {
    let alloc = rt.alloc();
    let text = module(alloc, "EXPLICIT", MIXED)?;
    let Ok(compiled) = compile(alloc, &Vec::new(alloc), text.as_str(), "own", &[]) else {
        same(&rt, "refused", "compiled");
        return Ok(());
    };
    let found = left_out(alloc, &compiled, text.as_str())?;
    let expected = [
        ("Real", 19),
        ("Uses", 20),
        ("dial", 21),
        ("Ring", 22),
        ("Text", 23),
    ];
    same(&rt, found.as_slice(), expected.as_slice());
    has_text(&rt, &compiled.files, "src/asn1/pair.rt", "pub text: Utf8StringRef<'a>,");
    has_text(&rt, &compiled.files, "src/asn1/part.rt", "pub type Part<'a> = Kind<'a>;");
    has_text(&rt, &compiled.files, "src/asn1/values.rt", "pub const FOUR: u64 = 4;");
    Ok(())
}

#[test]
fn types_are_asked_for(rt: HostRuntime) -> Result<(), Fail> {
    let alloc = rt.alloc();
    let text = module(alloc, "EXPLICIT", MIXED)?;
    for (only, files, place) in [
        (["Kind", "Kind"].as_slice(), 3, None),
        (["Pair"].as_slice(), 4, None),
        (["Kind", "Items"].as_slice(), 5, None),
        (["Kind", "Uses"].as_slice(), 0, Some((20, 37, "Real"))),
        (["Real"].as_slice(), 0, Some((19, 10, "EXTERNAL"))),
        (["Held"].as_slice(), 0, Some((1, 1, "M"))),
        (["Other"].as_slice(), 0, Some((1, 1, "M"))),
    ] {
        let (count, answer) = match compile(alloc, &Vec::new(alloc), text.as_str(), "own", only) {
            Ok(compiled) => (compiled.files.len(), None),
            Err(failure) => (0, Some(place_of(text.as_str(), failure))),
        };
        same_at(&rt, only.first().copied().unwrap_or(""), (count, answer), (files, place));
    }
    Ok(())
}

fn says_nothing_of(rt: &impl Abort, alloc: Global, body: &str) -> Result<(), AllocError> {
    let text = module(alloc, "AUTOMATIC", body)?;
    let answer = match compile(alloc, &Vec::new(alloc), text.as_str(), "own", &[]) {
        Ok(compiled) => Some(left_out(alloc, &compiled, text.as_str())?.len()),
        Err(_) => None,
    };
    same_at(rt, body, answer, Some(0));
    Ok(())
}

#[test]
fn other_notation_is_read(rt: HostRuntime) -> Result<(), Fail> {
    let alloc = rt.alloc();
    for body in [
        "A ::= SEQUENCE { a NULL, ..., [[ b NULL, c BOOLEAN OPTIONAL ]], [[3: d NULL ]], ..., e NULL }",
        "A ::= SEQUENCE { a NULL, ..., [[ b SEQUENCE { c NULL, ..., [[ d NULL ]] } ]] }",
        "A ::= CHOICE { a NULL, ..., [[ b BOOLEAN ]] }",
        "A ::= INTEGER (0 | 2..5 | 7, ..., 9)",
        "A ::= INTEGER (0..5 EXCEPT 3)",
        "A ::= INTEGER (ALL EXCEPT 3)",
        "A ::= INTEGER (-3 | 3)",
        "A ::= IA5String (FROM (\"a\"..\"z\" UNION \"0\"..\"9\") INTERSECTION SIZE (1))",
        "A ::= IA5String (\"on\" | \"off\")",
        "A ::= PrintableString (PATTERN \"[a-z]\")",
        "A ::= OCTET STRING (SIZE (4 | 16))",
        "A ::= OCTET STRING (CONSTRAINED BY { -- a rule -- })",
        "A ::= SEQUENCE (SIZE (1..3 | 5)) OF NULL\nB ::= SEQUENCE SIZE (2 | 4) OF NULL",
        "A ::= B (WITH COMPONENTS { ..., a ABSENT })\nB ::= SEQUENCE { a NULL OPTIONAL, b NULL }",
        "A ::= BIT STRING { a(0) } ({} | {a})",
        "A ::= ENUMERATED { a, b, c } (a | b)",
        "A ::= B (C)\nB ::= INTEGER C ::= B (0..5)",
    ] {
        says_nothing_of(&rt, alloc, body)?;
    }
    for text in [
        "\u{FEFF}M DEFINITIONS ::= BEGIN A ::= NULL END",
        "M DEFINITIONS AUTOMATIC TAGS EXTENSIBILITY IMPLIED ::= BEGIN A ::= NULL END",
        "M DEFINITIONS ::= BEGIN EXPORTS A{}, b; A ::= NULL b NULL ::= NULL END",
    ] {
        let is_compiled = compile(alloc, &Vec::new(alloc), text, "own", &[]).is_ok();
        same_at(&rt, text, is_compiled, true);
    }
    Ok(())
}
