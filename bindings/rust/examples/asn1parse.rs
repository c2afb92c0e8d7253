//! Prints the elements of a file as `openssl asn1parse -inform DER` does, up to and including
//! types.
//!
//!     DER_C_LIB=/usr/local/lib cargo run --example asn1parse FILE [ber]
use der_c::{Element, Error, Reader};
use std::process::ExitCode;

const UNIVERSAL: [&str; 32] = [
    "EOC",
    "BOOLEAN",
    "INTEGER",
    "BIT STRING",
    "OCTET STRING",
    "NULL",
    "OBJECT",
    "OBJECT DESCRIPTOR",
    "EXTERNAL",
    "REAL",
    "ENUMERATED",
    "<ASN1 11>",
    "UTF8STRING",
    "<ASN1 13>",
    "<ASN1 14>",
    "<ASN1 15>",
    "SEQUENCE",
    "SET",
    "NUMERICSTRING",
    "PRINTABLESTRING",
    "T61STRING",
    "VIDEOTEXSTRING",
    "IA5STRING",
    "UTCTIME",
    "GENERALIZEDTIME",
    "GRAPHICSTRING",
    "VISIBLESTRING",
    "GENERALSTRING",
    "UNIVERSALSTRING",
    "<ASN1 29>",
    "BMPSTRING",
    "<ASN1 31>",
];

fn type_of(element: &Element) -> String {
    let word = element.tag().0;
    let (octet, low) = (word % 256, word % 32);
    let number = if low < 31 { low } else { word / 256 };
    match octet / 64 {
        0 => UNIVERSAL[low as usize].to_owned(),
        1 => format!("appl [ {number} ]"),
        2 => format!("cont [ {number} ]"),
        _ => format!("priv [ {number} ]"),
    }
}

fn print_all(mut reader: Reader, depth: usize) -> Result<(), Error> {
    while !reader.is_finished() {
        let element = reader.read()?;
        let (start, after) = (element.start(), element.contents_start());
        let length = match element.is_indefinite() {
            true => "l=inf ".to_owned(),
            false => format!("l={:4}", element.contents().len()),
        };
        let form = if element.is_constructed() { "cons" } else { "prim" };
        let header = after - start;
        println!(
            "{start:5}:d={depth:<2} hl={header} {length} {form}: {:18}",
            type_of(&element)
        );
        if element.is_constructed() {
            print_all(reader.open(&element)?, depth + 1)?;
        }
    }
    reader.finish()
}

fn main() -> ExitCode {
    let words: Vec<_> = std::env::args().skip(1).collect();
    let Some(path) = words.first() else {
        eprintln!("usage: asn1parse FILE [ber]");
        return ExitCode::from(2);
    };
    let octets = match std::fs::read(path) {
        Ok(octets) => octets,
        Err(error) => {
            eprintln!("{path}: {error}");
            return ExitCode::from(2);
        }
    };
    let is_ber = words.get(1).is_some_and(|it| it == "ber");
    let reader = if is_ber {
        Reader::ber(&octets)
    } else {
        Reader::der(&octets)
    };
    match reader.and_then(|reader| print_all(reader, 0)) {
        Ok(()) => ExitCode::SUCCESS,
        Err(error) => {
            eprintln!("{error}");
            ExitCode::FAILURE
        }
    }
}
