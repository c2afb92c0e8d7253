//! Modules that are right.
use super::refusals::{accepts, compiled, has_text, module, refusal};
use crate::checks::{same, same_at};
use asn1_output::compile;
use std::test::Fail;

#[test]
fn every_type_is_accepted(rt: HostRuntime) -> Result<(), Fail> {
    let alloc = rt.alloc();
    for body in [
        "A ::= BOOLEAN",
        "A ::= INTEGER { one(1), two(b) } (0..MAX)\nb INTEGER ::= 2",
        "A ::= ENUMERATED { first(0), second(1), ... }",
        "A ::= BIT STRING { left(0), right(1) }",
        "A ::= OCTET STRING (SIZE (1..8))",
        "A ::= OCTET STRING (CONTAINING B)\nB ::= NULL",
        "A ::= OBJECT IDENTIFIER",
        "A ::= SEQUENCE { kind OBJECT IDENTIFIER, rest ANY DEFINED BY kind OPTIONAL }",
        "A ::= SEQUENCE SIZE (1..MAX) OF B\nB ::= SET (SIZE (2)) OF UTF8String",
        "A ::= CHOICE { a [0] B, b [APPLICATION 1] IMPLICIT B, c UniversalString }\nB ::= UTCTime",
        "A ::= SEQUENCE { a [0] A-b DEFAULT { 1 2 }, b BOOLEAN DEFAULT FALSE, ... }\nA-b ::= ANY",
        "id-a OBJECT IDENTIFIER ::= { iso(1) 2 b }\nb INTEGER ::= 5 on BOOLEAN ::= TRUE",
        "-- a comment -- A ::= NULL -- to the end of the line\n/* of /* two */ lines\n*/ B ::= A",
        "",
    ] {
        accepts(&rt, alloc, body)?;
    }
    Ok(())
}

#[test]
fn headers_are_accepted(rt: HostRuntime) -> Result<(), Fail> {
    let alloc = rt.alloc();
    for text in [
        "M { iso(1) 2 } DEFINITIONS ::= BEGIN EXPORTS A, b; A ::= NULL b NULL ::= NULL END",
        "M DEFINITIONS IMPLICIT TAGS ::= BEGIN IMPORTS; D ::= NULL END",
    ] {
        same(&rt, refusal(alloc, text), None);
    }
    Ok(())
}

#[test]
fn automatic_tags_are_distinct(rt: HostRuntime) -> Result<(), Fail> {
    let alloc = rt.alloc();
    let body = "A ::= SEQUENCE { a NULL OPTIONAL, b NULL }";
    same(&rt, refusal(alloc, &module(alloc, "AUTOMATIC", body)?), None);
    let tagged = "A ::= SEQUENCE { a NULL OPTIONAL, b NULL, c [0] NULL }";
    let text = module(alloc, "AUTOMATIC", tagged)?;
    same(&rt, refusal(alloc, &text), Some((2, 35, "b")));
    Ok(())
}

#[test]
fn alternatives_that_the_library_lacks_are_left_out(rt: HostRuntime) -> Result<(), Fail> {
    let alloc = rt.alloc();
    let body = "A ::= CHOICE { a UTF8String, b UniversalString, c EXTERNAL, d BMPString }";
    let text = module(alloc, "EXPLICIT", body)?;
    match compile(alloc, &Vec::new(alloc), text.as_str(), "own", &[]) {
        Ok(compiled) => {
            same_at(&rt, "count", compiled.left_out.len(), 2);
            let expected = ["b", "c"];
            for (at, left_out) in compiled.left_out.iter().enumerate() {
                same_at(&rt, at, Some(left_out.text), expected.get(at).copied());
            }
        }
        Err(_) => same_at(&rt, "compiled", false, true),
    }
    Ok(())
}

#[test]
fn integers_without_two_bounds_have_any_size(rt: HostRuntime) -> Result<(), Fail> {
    let alloc = rt.alloc();
    let body = "A ::= INTEGER (0..MAX)\nB ::= INTEGER (-5..5)\nC ::= INTEGER (MIN..7)";
    let text = module(alloc, "EXPLICIT", body)?;
    match compiled(alloc, &Vec::new(alloc), text.as_str()) {
        Ok(files) => {
            has_text(&rt, &files, "src/asn1/a.rt", "pub type A<'a> = IntRef<'a>;");
            has_text(&rt, &files, "src/asn1/b.rt", "pub type B<'a> = IntRef<'a>;");
            has_text(&rt, &files, "src/asn1/c.rt", "pub type C<'a> = IntRef<'a>;");
        }
        Err(place) => same(&rt, Some(place), None),
    }
    Ok(())
}

#[test]
fn a_default_may_be_a_type_that_is_written_by_hand(rt: HostRuntime) -> Result<(), Fail> {
    let alloc = rt.alloc();
    let body = "A ::= SEQUENCE {\n-- Rust default: Mine\na [0] B DEFAULT { b TRUE } }\nB ::= SEQUENCE { b BOOLEAN }";
    let text = module(alloc, "EXPLICIT", body)?;
    match compiled(alloc, &Vec::new(alloc), text.as_str()) {
        Ok(files) => {
            has_text(&rt, &files, "src/asn1/a.rt", "use crate::Mine;");
            has_text(&rt, &files, "src/asn1/a.rt", "pub a: DefaultedTo<Explicit<B<'a>, 0>, Mine>,");
        }
        Err(place) => same(&rt, Some(place), None),
    }
    Ok(())
}

#[test]
fn one_struct_stands_for_a_choice_inside_tags(rt: HostRuntime) -> Result<(), Fail> {
    let alloc = rt.alloc();
    let body = "A ::= SEQUENCE { a [0] C, b [1] C }\nC ::= CHOICE { a NULL, b BOOLEAN }";
    let text = module(alloc, "EXPLICIT", body)?;
    match compiled(alloc, &Vec::new(alloc), text.as_str()) {
        Ok(files) => {
            has_text(&rt, &files, "src/asn1/a.rt", "pub a: Implicit<CTagged<'a>, 0>,");
            has_text(&rt, &files, "src/asn1/a.rt", "pub b: Implicit<CTagged<'a>, 1>,");
            has_text(&rt, &files, "src/asn1/c_tagged.rt", "pub struct CTagged<'a> {");
        }
        Err(place) => same(&rt, Some(place), None),
    }
    Ok(())
}

#[test]
fn values_are_written_from_the_end_of_a_buffer(rt: HostRuntime) -> Result<(), Fail> {
    let alloc = rt.alloc();
    let body = "A ::= SEQUENCE { a NULL, b BOOLEAN }\nC ::= CHOICE { a NULL, b BOOLEAN }\n-- Rust field: all\nL ::= SET OF A";
    let text = module(alloc, "EXPLICIT", body)?;
    match compiled(alloc, &Vec::new(alloc), text.as_str()) {
        Ok(files) => {
            let (a, c, l) = ("src/asn1/a.rt", "src/asn1/c.rt", "src/asn1/l.rt");
            has_text(&rt, &files, a, "call.call(&field_refs!(self, (a, b)), state, buf)");
            has_text(&rt, &files, c, "C::B(value) => value.len_before(),");
            has_text(&rt, &files, c, "C::B(value) => value.encode_before(buf, end),");
            has_text(&rt, &files, l, "self.all.value_len_before()");
            has_text(&rt, &files, l, "self.all.encode_value_before(buf, end)");
            let proof = "proofs/asn1/c/CEncode/len_before/Answers.antt";
            has_text(&rt, &files, proof, "returns-in-A c = rw c.in-A.is c.len_before.ensures");
            has_text(&rt, &files, proof, "returns-in-B c = rw c.in-B.is c.len_before-in-B.ensures");
            let proof = "proofs/asn1/c/CEncode/encode_before/Answers.antt";
            has_text(&rt, &files, proof, "returns-in-A c = rw c.in-A.is c.encode_before.ensures");
            has_text(&rt, &files, proof, "returns-in-B c = rw c.in-B.is c.encode_before-in-B.ensures");
        }
        Err(place) => same(&rt, Some(place), None),
    }
    Ok(())
}

#[test]
fn components_of_a_set_have_the_order_of_their_tags(rt: HostRuntime) -> Result<(), Fail> {
    let alloc = rt.alloc();
    let body = "A ::= SET { b [1] NULL, a INTEGER, c [APPLICATION 0] NULL, d BOOLEAN }\nB ::= CHOICE { a A }";
    let text = module(alloc, "EXPLICIT", body)?;
    match compiled(alloc, &Vec::new(alloc), text.as_str()) {
        Ok(files) => {
            has_text(&rt, &files, "src/asn1/a.rt", "pub type A<'a> = AsSet<AContents<'a>>;");
            let order = "(BooleanRef<'a>, IntRef<'a>, Application<Explicit<Null<'a>, 0>>, Explicit<Null<'a>, 1>);";
            has_text(&rt, &files, "src/asn1/a_contents.rt", order);
        }
        Err(_) => same_at(&rt, "compiled", false, true),
    }
    Ok(())
}

#[test]
fn what_is_wrong_is_left_out_of_the_rest(rt: HostRuntime) -> Result<(), Fail> {
    let alloc = rt.alloc();
    for wrong in [
        "B ::= Undefined",
        "B ::= ENUMERATED { a(1), b(1) }",
        "B ::= SEQUENCE { a NULL OPTIONAL, b NULL }",
        "B ::= INTEGER (SIZE (1))",
        "b OBJECT IDENTIFIER ::= { undefined 1 }",
        "B ::= SET { a CHOICE { b NULL, d BOOLEAN }, c INTEGER }",
    ] {
        let text = module(alloc, "EXPLICIT", format!(in alloc; "A ::= BOOLEAN\n{wrong}")?.as_str())?;
        let count = match compile(alloc, &Vec::new(alloc), text.as_str(), "own", &[]) {
            Ok(compiled) => compiled.warnings.iter().filter(|it| it.text.as_str().contains("is left out")).count(),
            Err(_) => 0,
        };
        same_at(&rt, wrong, count, 1);
        same_at(&rt, wrong, compile(alloc, &Vec::new(alloc), text.as_str(), "own", &["A"]).is_ok(), true);
        same_at(&rt, wrong, compile(alloc, &Vec::new(alloc), text.as_str(), "own", &["A", "B"]).is_ok(), false);
    }
    Ok(())
}
