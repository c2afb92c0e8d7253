//! Values: OBJECT IDENTIFIERs, numbers and truth values.
use super::refusals::{compiled, has_text, module, refuses};
use crate::checks::same_at;
use std::test::Fail;

#[test]
fn octets_of_identifiers(rt: HostRuntime) -> Result<(), Fail> {
    let alloc = rt.alloc();
    for (value, octets) in [
        ("{ iso(1) member-body(2) us(840) rsadsi(113549) 1 1 1 }", "0x2A, 0x86, 0x48, 0x86, 0xF7, 0x0D, 0x01, 0x01, 0x01"),
        ("{ joint-iso-itu-t(2) ds(5) 4 3 }", "0x55, 0x04, 0x03"),
        ("{ joint-iso-ccitt ds(5) 4 3 }", "0x55, 0x04, 0x03"),
        ("{ 2 999 }", "0x88, 0x37"),
        ("{ iso standard 8571 }", "0x28, 0xC2, 0x7B"),
        ("{ iso member-body 840 }", "0x2A, 0x86, 0x48"),
        ("{ iso identified-organization 6 }", "0x2B, 0x06"),
        ("{ itu-t identified-organization 0 }", "0x04, 0x00"),
        ("{ ccitt 39 }", "0x27"),
        ("{ 1 39 }", "0x4F"),
        ("{ 2 0 }", "0x50"),
        ("{ 2 48 127 128 }", "0x81, 0x00, 0x7F, 0x81, 0x00"),
        ("{ base 1 }", "0x2A, 0x03, 0x01"),
        ("{ base three }", "0x2A, 0x03, 0x03"),
        ("{ base x(three) }", "0x2A, 0x03, 0x03"),
        ("base", "0x2A, 0x03"),
        ("{ 2 25 18446744073709551615 }", "0x69, 0x81, 0xFF, 0xFF, 0xFF, 0xFF, 0xFF, 0xFF, 0xFF, 0xFF, 0x7F"),
        ("{ 2 18446744073709551615 }", "0x82, 0x80, 0x80, 0x80, 0x80, 0x80, 0x80, 0x80, 0x80, 0x4F"),
    ] {
        let body = format!(in alloc;
            "a OBJECT IDENTIFIER ::= {value}\nbase OBJECT IDENTIFIER ::= {{ 1 2 three }}\nthree INTEGER ::= 3"
        )?;
        let text = module(alloc, "EXPLICIT", body.as_str())?;
        match compiled(alloc, &Vec::new(alloc), &text) {
            Ok(files) => {
                let call = format!(in alloc; "pub fn a() -> ObjectIdentifierRef<'static>")?;
                has_text(&rt, &files, "src/asn1/values.rt", call.as_str());
                let made = format!(in alloc; "ObjectIdentifierRef::new(&[{octets}])")?;
                has_text(&rt, &files, "src/asn1/values.rt", made.as_str());
            }
            Err(place) => same_at(&rt, value, Some(place), None),
        }
    }
    Ok(())
}

#[test]
fn numbers_are_constants(rt: HostRuntime) -> Result<(), Fail> {
    let alloc = rt.alloc();
    let body = "ub-name INTEGER ::= 32768\nleast INTEGER ::= -9223372036854775808
most INTEGER ::= 18446744073709551615\non BOOLEAN ::= TRUE\nother BOOLEAN ::= off
off BOOLEAN ::= FALSE\nsecond Version ::= v2\nVersion ::= INTEGER { v1(0), v2(one) } (0..one)
one INTEGER ::= 1\nupToName T ::= ub-name\nT ::= INTEGER\nnothing NULL ::= NULL";
    let text = module(alloc, "EXPLICIT", body)?;
    match compiled(alloc, &Vec::new(alloc), &text) {
        Ok(files) => {
            for line in [
                "pub const UB_NAME: u64 = 32768;",
                "pub const LEAST: i64 = -9223372036854775808;",
                "pub const MOST: u64 = 18446744073709551615;",
                "pub const ON: bool = true;",
                "pub const OTHER: bool = false;",
                "pub const SECOND: u64 = 1;",
                "pub const UP_TO_NAME: u64 = 32768;",
            ] {
                has_text(&rt, &files, "src/asn1/values.rt", line);
            }
            has_text(&rt, &files, "src/asn1/version.rt", "impl Enumeration for Version {");
            has_text(&rt, &files, "src/asn1.rt", "pub mod values;");
        }
        Err(place) => same_at(&rt, body, Some(place), None),
    }
    Ok(())
}

#[test]
fn values_that_are_wrong(rt: HostRuntime) -> Result<(), Fail> {
    let alloc = rt.alloc();
    for (body, place) in [
        ("a INTEGER ::= TRUE", (2, 15, "TRUE")),
        ("a INTEGER ::= { 1 2 }", (2, 15, "{")),
        ("a INTEGER ::= 18446744073709551616", (2, 15, "18446744073709551616")),
        ("a INTEGER ::= -9223372036854775809", (2, 15, "-")),
        ("a INTEGER ::= b", (2, 15, "b")),
        ("a INTEGER ::= b\nb BOOLEAN ::= TRUE", (2, 15, "b")),
        ("a INTEGER (1..5) ::= 6", (2, 22, "6")),
        ("a T ::= -1\nT ::= INTEGER (0..MAX)", (2, 9, "-")),
        ("a BOOLEAN ::= 1", (2, 15, "1")),
        ("a BOOLEAN ::= NULL", (2, 15, "NULL")),
        ("a NULL ::= TRUE", (2, 12, "TRUE")),
        ("a OCTET STRING ::= 5", (2, 20, "5")),
        ("a UTF8String ::= '00'H", (2, 18, "'00'H")),
        ("a ENUMERATED { b } ::= c", (2, 24, "c")),
        ("a SEQUENCE OF NULL ::= 5", (2, 24, "5")),
        ("a INTEGER ::= b\nb INTEGER ::= a", (2, 1, "a")),
        ("a OBJECT IDENTIFIER ::= { 1 2 3 }\nb OBJECT IDENTIFIER ::= { b 1 }", (3, 1, "b")),
        ("A ::= INTEGER (0..b)", (2, 19, "b")),
        ("A ::= OCTET STRING (SIZE (b))", (2, 27, "b")),
        ("A ::= INTEGER { a(b) }\nb BOOLEAN ::= TRUE", (2, 19, "b")),
    ] {
        refuses(&rt, alloc, body, place)?;
    }
    Ok(())
}

#[test]
fn identifiers_that_are_wrong(rt: HostRuntime) -> Result<(), Fail> {
    let alloc = rt.alloc();
    for (value, place) in [
        ("{ 3 1 }", (2, 27, "3")),
        ("{ 0 40 }", (2, 29, "40")),
        ("{ iso(1) 40 }", (2, 34, "40")),
        ("{ iso(3) 1 }", (2, 31, "3")),
        ("{ 1 }", (2, 25, "{")),
        ("{ }", (2, 25, "{")),
        ("{ 1 2 TRUE }", (2, 31, "TRUE")),
        ("{ 1 2 -5 }", (2, 31, "-")),
        ("{ 1 2 x }", (2, 31, "x")),
        ("{ 1 2 x(y) }", (2, 33, "y")),
        ("{ 1 2 x(5 }", (2, 31, "x")),
        ("{ 1 2 x(5 6) }", (2, 31, "x")),
        ("{ 1 2 x( }", (2, 31, "x")),
        ("{ 1 2 on }", (2, 31, "on")),
        ("{ 1 2 least }", (2, 31, "least")),
        ("{ 1 2 b }", (2, 31, "b")),
        ("{ 1 2 18446744073709551616 }", (2, 31, "18446744073709551616")),
        ("{ member-body 2 }", (2, 27, "member-body")),
        ("5", (2, 25, "5")),
        ("on", (2, 25, "on")),
    ] {
        let body = format!(in alloc;
            "a OBJECT IDENTIFIER ::= {value}\non BOOLEAN ::= TRUE\nleast INTEGER ::= -1\nb OBJECT IDENTIFIER ::= {{ 1 2 }}"
        )?;
        refuses(&rt, alloc, body.as_str(), place)?;
    }
    Ok(())
}
