//! Prints the DNS names of a certificate, a line each. The certificate is read, and nothing about it is
//! verified. To compare a line with the name of a host is no check that the certificate is for that host (RFC
//! 9525, 6): the library that opens the connection has such a check.
//!
//!     DER_C_LIB=/usr/local/lib cargo run --example names CERTIFICATE
use der_c::{Certificate, Error, GeneralName};
use std::process::ExitCode;

fn print_names(octets: &[u8]) -> Result<(), Error> {
    let certificate = Certificate::from_der(octets)?;
    let names = certificate.extensions().subject_alternative_name()?;
    for name in names.into_iter().flatten() {
        if let GeneralName::Dns(name) = name? {
            // the name comes from the certificate, so what is not printable is escaped
            println!("{}", name.escape_debug());
        }
    }
    Ok(())
}

fn main() -> ExitCode {
    let Some(path) = std::env::args().nth(1) else {
        eprintln!("usage: names CERTIFICATE");
        return ExitCode::from(2);
    };
    let octets = match std::fs::read(&path) {
        Ok(octets) => octets,
        Err(error) => {
            eprintln!("{path}: {error}");
            return ExitCode::from(2);
        }
    };
    match print_names(&octets) {
        Ok(()) => ExitCode::SUCCESS,
        Err(error) => {
            eprintln!("{error}");
            ExitCode::FAILURE
        }
    }
}
