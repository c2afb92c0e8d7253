//! Imports from modules of other crates.
use super::refusals::{compiled, externals, has_text, place_of};
use crate::checks::{holds, same_at};
use std::test::Fail;

const ONE: &str = "One DEFINITIONS IMPLICIT TAGS ::= BEGIN
EXPORTS ALL;
id-one OBJECT IDENTIFIER ::= { iso(1) member-body(2) us(840) }
most INTEGER ::= 64
Algorithm ::= SEQUENCE { kind OBJECT IDENTIFIER, parameters ANY DEFINED BY kind OPTIONAL }
Version ::= INTEGER { v1(0), v2(1) }
Reason ::= ENUMERATED { first(0), second(1) }
Text ::= CHOICE { utf8 UTF8String, algorithm [0] Algorithm }
END
";

const TWO: &str = "Two DEFINITIONS IMPLICIT TAGS ::= BEGIN
IMPORTS Text FROM One;
Alias ::= Text
Plain ::= SEQUENCE OF NULL
END
";

#[test]
fn imported_names_stand_for_what_crates_hold(rt: HostRuntime) -> Result<(), Fail> {
    let alloc = rt.alloc();
    let Ok(found) = externals(alloc, &[ONE, TWO]) else {
        holds(&rt, false);
        return Ok(());
    };
    let text = "M DEFINITIONS IMPLICIT TAGS ::= BEGIN
IMPORTS Algorithm, Version, Reason, Text, id-one, most FROM One { 1 2 3 } Alias FROM Two;
A ::= SEQUENCE {
  size INTEGER (0..most),
  version Version DEFAULT v2,
  kinds SET OF Algorithm,
  reason [1] Reason,
  alias Alias }
B ::= CHOICE { text Text, algorithm Algorithm }
id-two OBJECT IDENTIFIER ::= { id-one 113549 }
END";
    match compiled(alloc, &found, text) {
        Ok(files) => {
            has_text(&rt, &files, "src/asn1/a.rt", "use one::{Algorithm, Reason};");
            has_text(&rt, &files, "src/asn1/a.rt", "use two::Alias;");
            has_text(&rt, &files, "src/asn1/a.rt", "pub kinds: SetOf<'a, Algorithm<'a>>,");
            has_text(&rt, &files, "src/asn1/a.rt", "pub size: IntegerIn<0, 64>,");
            has_text(&rt, &files, "src/asn1/a.rt", "pub reason: Implicit<Enumerated<Reason>, 1>,");
            has_text(&rt, &files, "src/asn1/a.rt", "pub version: Defaulted<WithDefault<IntRef<'a>, AVersionDefault>>,");
            has_text(&rt, &files, "src/asn1/a.rt", "one::Text::Utf8(value)");
            has_text(&rt, &files, "src/asn1/b.rt", "use one::{Algorithm, Text};");
            has_text(&rt, &files, "src/asn1/values.rt", "[0x2A, 0x86, 0x48, 0x86, 0xF7, 0x0D]");
        }
        Err(place) => same_at(&rt, text, Some(place), None),
    }
    Ok(())
}

#[test]
fn imports_that_are_wrong(rt: HostRuntime) -> Result<(), Fail> {
    let alloc = rt.alloc();
    let Ok(found) = externals(alloc, &[ONE, TWO]) else {
        holds(&rt, false);
        return Ok(());
    };
    for (body, place) in [
        ("IMPORTS Algorithm FROM Three;\nA ::= Algorithm", (2, 24, "Three")),
        ("IMPORTS Algorithms FROM One;", (2, 9, "Algorithms")),
        ("IMPORTS Version, id-two FROM One;", (2, 18, "id-two")),
        ("IMPORTS Text FROM Two;", (2, 9, "Text")),
        ("IMPORTS Version, Version FROM One;", (2, 18, "Version")),
        ("IMPORTS Version FROM One;\nVersion ::= NULL", (3, 1, "Version")),
        ("IMPORTS most FROM One;\nmost INTEGER ::= 5", (3, 1, "most")),
        ("IMPORTS Text FROM One;\nA ::= CHOICE { a Text, b UTF8String }", (3, 24, "b")),
        ("IMPORTS Text FROM One;\nA ::= SEQUENCE { a Text OPTIONAL, b [0] NULL }", (3, 35, "b")),
        ("IMPORTS Alias FROM Two;\nA ::= SEQUENCE { a [1] IMPLICIT Alias }", (3, 20, "[")),
        ("IMPORTS Plain FROM Two;\nA ::= SEQUENCE OF Plain", (3, 19, "Plain")),
        ("IMPORTS id-one FROM One;\na INTEGER ::= id-one", (3, 15, "id-one")),
    ] {
        let text = format!(in alloc; "M DEFINITIONS IMPLICIT TAGS ::= BEGIN\n{body}\nEND\n")?;
        let answer = match compiled(alloc, &found, &text) {
            Ok(_) => None,
            Err(place) => Some(place),
        };
        same_at(&rt, body, answer, Some(place));
    }
    Ok(())
}

#[test]
fn modules_that_are_given_twice_or_too_late(rt: HostRuntime) -> Result<(), Fail> {
    let alloc = rt.alloc();
    let answer = match externals(alloc, &[ONE, ONE]) {
        Ok(_) => None,
        Err(failure) => Some(place_of(ONE, failure)),
    };
    same_at(&rt, ONE, answer, Some((1, 1, "One")));
    let Ok(found) = externals(alloc, &[TWO, ONE]) else {
        holds(&rt, false);
        return Ok(());
    };
    // what Two has of One is left out, and the rest is there
    for (name, place) in [("Alias", Some((1, 33, "Alias"))), ("Plain", None)] {
        let text = format!(in alloc; "M DEFINITIONS ::= BEGIN IMPORTS {name} FROM Two; A ::= {name} END")?;
        let answer = match compiled(alloc, &found, &text) {
            Ok(_) => None,
            Err(place) => Some(place),
        };
        same_at(&rt, name, answer, place);
    }
    Ok(())
}
