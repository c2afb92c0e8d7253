//! Prints the subject of a certificate, its end and its version: a first program over the crate der_c. The subject is for
//! people to read, and says nothing of a host (RFC 9525, 2).
use der_c::{Certificate, Error};

fn show(octets: &[u8]) -> Result<(), Error> {
    let certificate = Certificate::from_der(octets)?;
    println!("subject: {}", certificate.subject());
    println!("until: {} seconds after 1970", certificate.not_after());
    println!("version: {}", certificate.version());
    Ok(())
}

fn main() {
    let path = std::env::args().nth(1).expect("usage: first CERTIFICATE");
    let octets = std::fs::read(path).expect("the file cannot be read");
    if let Err(error) = show(&octets) {
        eprintln!("{error}");
        std::process::exit(1);
    }
}
