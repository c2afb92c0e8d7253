//! Types of Rust for ranges, defaults and additions.
use super::refusals::{compiled, has_text, module};
use crate::checks::same_at;
use std::test::Fail;

#[test]
fn the_tags_that_are_known_at_a_mark_are_listed(rt: HostRuntime) -> Result<(), Fail> {
    let alloc = rt.alloc();
    let body = "A ::= SEQUENCE { a NULL, ..., b BOOLEAN, ..., c INTEGER }";
    let text = module(alloc, "EXPLICIT", body)?;
    match compiled(alloc, &Vec::new(alloc), &text) {
        Ok(files) => has_text(&rt, &files, "src/asn1/a_known.rt", "is_among(&[(0, 1), (0, 2)], tag)"),
        Err(place) => same_at(&rt, body, Some(place), None),
    }
    Ok(())
}

#[test]
fn ranges_and_defaults_reach_the_types(rt: HostRuntime) -> Result<(), Fail> {
    let alloc = rt.alloc();
    for (body, line) in [
        ("A ::= SEQUENCE { a I (0..10) }\nI ::= INTEGER", "pub a: IntegerIn<0, 10>,"),
        ("A ::= I (0..10)\nI ::= INTEGER", "pub type A = IntegerIn<0, 10>;"),
        ("A ::= [0] I (3..4)\nI ::= INTEGER", "pub type A = Explicit<IntegerIn<3, 4>, 0>;"),
        ("A ::= I (3..4)\nI ::= [0] IMPLICIT INTEGER", "pub type A = Implicit<IntegerIn<3, 4>, 0>;"),
        ("A ::= I (one..two)\nI ::= INTEGER { one(1), two(2) }", "pub type A = IntegerIn<1, 2>;"),
        ("A ::= INTEGER (1..10) (5..20)", "pub type A = IntegerIn<5, 10>;"),
        ("A ::= INTEGER (0..5, ...) (0..3)", "pub type A = IntegerIn<0, 3>;"),
        ("A ::= INTEGER (0..9) (0..3, ...)", "pub type A = IntegerIn<0, 9>;"),
        ("A ::= OCTET STRING (CONTAINING I) (SIZE (4))\nI ::= INTEGER", "pub type A<'a> = OctetStringOf<I<'a>>;"),
        ("A ::= SEQUENCE { a INTEGER (0..5) DEFAULT 3 }", "pub a: Defaulted<WithDefault<IntegerIn<0, 5>, AADefault>>,"),
        ("A ::= SEQUENCE { a INTEGER DEFAULT -129 }", "<IntRef<'a>>::formed(&[0xFF, 0x7F])"),
        ("A ::= SEQUENCE { a I DEFAULT 3 }\nI ::= [1] INTEGER", "pub a: Defaulted<Explicit<WithDefault<IntRef<'a>, AADefault>, 1>>,"),
        ("A ::= SEQUENCE { a SET OF NULL DEFAULT {} }", "pub a: Defaulted<WithDefault<SetOf<'a, Null<'a>>, DefaultEmpty>>,"),
        ("A ::= SEQUENCE { a INTEGER { b(0), c(1) } (0..1) DEFAULT 1 }", "AA::C"),
        ("A ::= SEQUENCE { a NULL, ..., b BOOLEAN }", "pub b: Optional<BooleanRef<'a>>,"),
        ("A ::= SEQUENCE { a NULL, ..., b BOOLEAN }", "pub additions: Additions<'a, AKnown>,"),
        ("A ::= CHOICE { a NULL, ..., b BOOLEAN }", "Unknown(UnknownElement<'a, AKnown>),"),
        ("A ::= ENUMERATED { a(-1), b }", "pub type A<'a> = EnumeratedRef<'a>;"),
        ("A ::= SEQUENCE { a C }\nC ::= ENUMERATED { b, ..., d }", "pub a: EnumeratedOf<i64>,"),
        ("A ::= SEQUENCE { a ENUMERATED { b, ... } }", "pub a: EnumeratedOf<i64>,"),
        ("A ::= SEQUENCE { a [0] C }\nC ::= ENUMERATED { b, ... }", "pub a: Explicit<EnumeratedOf<i64>, 0>,"),
        ("A ::= SEQUENCE { a C DEFAULT d }\nC ::= ENUMERATED { b, ..., d(7) }", "EnumeratedOf { number: 7 }"),
        ("A ::= ENUMERATED { b, ..., d }", "impl Enumeration for A {"),
        ("A ::= SEQUENCE { a C }\n-- Rust extensions: refused\nC ::= ENUMERATED { b, ... }", "pub a: Enumerated<C>,"),
    ] {
        let text = module(alloc, "EXPLICIT", body)?;
        match compiled(alloc, &Vec::new(alloc), &text) {
            Ok(files) => has_text(&rt, &files, "src/asn1/a.rt", line),
            Err(place) => same_at(&rt, body, Some(place), None),
        }
    }
    Ok(())
}

// The tags that `asn1c -E -F` of Debian's package asn1c 0.9.28 prints for these components.
#[test]
fn components_of_other_types_are_numbered(rt: HostRuntime) -> Result<(), Fail> {
    let alloc = rt.alloc();
    let body = "A ::= SEQUENCE { first NULL, COMPONENTS OF B, last BOOLEAN OPTIONAL }
B ::= SEQUENCE { a BOOLEAN, b INTEGER OPTIONAL, ..., c NULL OPTIONAL }
C ::= SEQUENCE { first NULL, COMPONENTS OF D }
D ::= SEQUENCE { x [5] BOOLEAN }";
    let text = module(alloc, "AUTOMATIC", body)?;
    let files = match compiled(alloc, &Vec::new(alloc), &text) {
        Ok(files) => files,
        Err(place) => {
            same_at(&rt, body, Some(place), None);
            return Ok(());
        }
    };
    has_text(&rt, &files, "src/asn1/a.rt", "pub first: Implicit<Null<'a>, 0>,");
    has_text(&rt, &files, "src/asn1/a.rt", "pub a: Implicit<BooleanRef<'a>, 1>,");
    has_text(&rt, &files, "src/asn1/a.rt", "pub b: Optional<Implicit<IntRef<'a>, 2>>,");
    has_text(&rt, &files, "src/asn1/a.rt", "pub last: Optional<Implicit<BooleanRef<'a>, 3>>,");
    has_text(&rt, &files, "src/asn1/c.rt", "pub first: Implicit<Null<'a>, 0>,");
    has_text(&rt, &files, "src/asn1/c.rt", "pub x: Implicit<Implicit<BooleanRef<'a>, 5>, 1>,");
    Ok(())
}
