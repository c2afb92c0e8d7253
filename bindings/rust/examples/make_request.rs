//! Makes a certificate request (PKCS #10, RFC 2986) for a DNS name, in two steps:
//!
//!     cargo run --example make_request KEY NAME PART                  writes the part that is signed
//!     openssl dgst -sha256 -sign PRIVATE -out SIGNATURE PART
//!     cargo run --example make_request KEY NAME REQUEST SIGNATURE     writes the whole request
//!
//! KEY is a public key in DER (`openssl pkey -pubout -outform DER`), of RSA or of an elliptic curve.
//! The signature is not verified.
use der_c::{Error, PublicKey, Tag, Writer, id};
use std::process::ExitCode;

/// What `write` writes.
fn written(write: impl FnOnce(&mut Writer) -> Result<(), Error>) -> Result<Vec<u8>, Error> {
    let mut space = vec![0; 1 << 16];
    let mut writer = Writer::new(&mut space);
    write(&mut writer)?;
    Ok(writer.finish()?.to_vec())
}

/// A SEQUENCE that `write` fills.
fn sequence(write: impl FnOnce(&mut Writer) -> Result<(), Error>) -> Result<Vec<u8>, Error> {
    written(|writer| writer.inside(Tag::SEQUENCE, write))
}

/// CertificationRequestInfo, the part that is signed, with the DNS name as an extension (RFC 5280, 4.2.1.6).
fn part(key: &[u8], name: &str) -> Result<Vec<u8>, Error> {
    let names = sequence(|names| names.text(Tag::context(2, false), Tag::IA5_STRING, name.as_bytes()))?;
    let extensions = sequence(|all| all.extension(id::SUBJECT_ALTERNATIVE_NAME, false, &names))?;
    let subject = sequence(|levels| levels.name_attribute(id::COMMON_NAME, Tag::UTF8_STRING, name.as_bytes()))?;
    written(|part| part.request_part(&subject, key, &extensions))
}

fn request(key: &[u8], name: &str, signature: &[u8]) -> Result<Vec<u8>, Error> {
    let is_rsa = PublicKey::from_der(key)?.algorithm.identifier == id::RSA_ENCRYPTION;
    let identifier = if is_rsa {
        id::SHA256_WITH_RSA
    } else {
        id::ECDSA_WITH_SHA256
    };
    let algorithm = written(|algorithm| algorithm.algorithm(identifier, is_rsa))?;
    let part = part(key, name)?;
    written(|request| request.signed(&part, &algorithm, signature))
}

fn run(words: &[String]) -> Result<(), Box<dyn std::error::Error>> {
    let (out, octets) = match words {
        [key, name, out] => (out, part(&std::fs::read(key)?, name)?),
        [key, name, out, signature] => (out, request(&std::fs::read(key)?, name, &std::fs::read(signature)?)?),
        _ => return Err("usage: make_request KEY NAME PART, or make_request KEY NAME REQUEST SIGNATURE".into()),
    };
    Ok(std::fs::write(out, octets)?)
}

fn main() -> ExitCode {
    match run(&std::env::args().skip(1).collect::<Vec<_>>()) {
        Ok(()) => ExitCode::SUCCESS,
        Err(error) => {
            eprintln!("make_request: {error}");
            ExitCode::FAILURE
        }
    }
}
