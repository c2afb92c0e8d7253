//! Values of fields.

use schema_cursor::Cursor;
use std::io;

/// Prints the value of each of some fields.
pub fn print_values<R: Print>(rt: &R, root: Cursor<'_>) -> io::Result<()> {
    let paths = [
        "tbsCertificate.version",
        "tbsCertificate.serialNumber",
        "tbsCertificate.signature.algorithm",
        "tbsCertificate.issuer[0][0].value",
        "tbsCertificate.issuer[1][0].value",
        "tbsCertificate.issuer[2][0].value",
        "tbsCertificate.validity.notBefore",
        "tbsCertificate.validity.notAfter.generalTime",
        "tbsCertificate.extensions[0].extnValue",
        "tbsCertificate.extensions[2].critical",
        "tbsCertificate.extensions[2].extnValue.cA",
        "tbsCertificate.extensions[3].extnValue[0]",
        "tbsCertificate.extensions[4].extnValue",
        "tbsCertificate.extensions[5]",
        "tbsCertificate.extensions[x]",
        "tbsCertificate..version",
        "signatureAlgorithm.parameters",
    ];
    for path in paths {
        print!(rt; "{path}: ")?;
        match root.at(path) {
            Some(element) => print_value(rt, element)?,
            None => println!(rt; "none")?,
        }
    }
    Ok(())
}

// Prints the value in the form that it has.
fn print_value<R: Print>(rt: &R, element: Cursor<'_>) -> io::Result<()> {
    if let Some(value) = element.boolean() {
        return println!(rt; "{value}");
    }
    if let Some(name) = element.number_name() {
        return println!(rt; "{name}");
    }
    if let Some(integer) = element.integer() {
        return print_octets(rt, integer.octets());
    }
    if let Some(identifier) = element.object_identifier() {
        return println!(rt; "{identifier}");
    }
    if let Some(text) = element.text() {
        return println!(rt; "{text}");
    }
    if let Some(time) = element.time() {
        print!(rt; "{}-{:02}-{:02}T", time.year, time.month, time.day)?;
        return println!(rt; "{:02}:{:02}:{:02}Z", time.hour, time.minute, time.second);
    }
    match element.inner() {
        Some(inner) => match inner.bit_names() {
            Some(names) => {
                for name in names {
                    print!(rt; "{name} ")?;
                }
                println!(rt; "")
            }
            None => print_octets(rt, inner.contents()),
        },
        None => print_octets(rt, element.contents()),
    }
}

fn print_octets<R: Print>(rt: &R, octets: &[u8]) -> io::Result<()> {
    for octet in octets {
        print!(rt; "{octet:02X}")?;
    }
    println!(rt; "")
}
