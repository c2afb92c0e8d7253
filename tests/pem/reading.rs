//! The functions of docs/CALLING.md, "Read a PEM file".
use super::texts::{CERTIFICATE, CERTIFICATE_DER, ENCRYPTED, KEY, KEY_DER, TWO_BLOCKS};
use crate::checks::{holds, same, same_octets};
use pem::{BlockText, Blocks, Error, ErrorKind, Position};
use std::alloc::{AllocError, Global};

/// Why a file has no contents.
#[derive(Debug, Drop)]
enum ReadError {
    /// The text or the base64 in it is malformed.
    Pem(Error),
    /// The file has no block with the label.
    NoBlock,
    /// The contents are encrypted.
    Encrypted,
    /// There is not enough memory.
    OutOfMemory,
}

/// The contents of the first block of the text that has the label.
fn contents_of(alloc: Global, text: &[u8], label: &str) -> Result<Vec<u8>, ReadError> {
    for found in Blocks::new(text) {
        let block = found.map_err(ReadError::Pem)?;
        if block.label() != label {
            continue;
        }
        if block.is_encrypted() {
            return Err(ReadError::Encrypted);
        }
        let mut octets =
            vec![in alloc; 0u8; block.decoded_len()].map_err(|_| ReadError::OutOfMemory)?;
        block.decode_into(&mut octets).map_err(ReadError::Pem)?;
        return Ok(octets);
    }
    Err(ReadError::NoBlock)
}

#[test]
fn contents_of_files(rt: HostRuntime) {
    for (text, label, octets) in [
        (KEY.as_slice(), "PRIVATE KEY", KEY_DER.as_slice()),
        (
            CERTIFICATE.as_slice(),
            "CERTIFICATE",
            CERTIFICATE_DER.as_slice(),
        ),
    ] {
        match contents_of(rt.alloc(), text, label) {
            Ok(contents) => same_octets(&rt, &contents, octets),
            Err(_) => holds(&rt, false),
        }
    }
    holds(
        &rt,
        matches!(
            contents_of(rt.alloc(), TWO_BLOCKS, "PRIVATE KEY"),
            Err(ReadError::NoBlock)
        ),
    );
    let encrypted = contents_of(rt.alloc(), ENCRYPTED, "EC PRIVATE KEY");
    holds(&rt, matches!(encrypted, Err(ReadError::Encrypted)));
    match contents_of(rt.alloc(), b"-----BEGIN A-----\n?\n-----END A-----", "A") {
        Err(ReadError::Pem(error)) => {
            same(&rt, error.kind, ErrorKind::InvalidCharacter);
            same(
                &rt,
                error.position,
                Position {
                    offset: 18,
                    line: 2,
                    column: 1,
                },
            );
        }
        _ => holds(&rt, false),
    }
}

/// The text of a block with the octets.
fn text_of(alloc: Global, label: &str, octets: &[u8]) -> Result<Option<String>, AllocError> {
    match BlockText::new(label, octets) {
        Some(block) => Ok(Some(format!(in alloc; "{block}")?)),
        None => Ok(None),
    }
}

#[test]
fn texts_of_blocks(rt: HostRuntime) -> Result<(), AllocError> {
    match text_of(rt.alloc(), "PRIVATE KEY", &KEY_DER)? {
        Some(text) => same_octets(&rt, text.as_bytes(), KEY),
        None => holds(&rt, false),
    }
    holds(
        &rt,
        text_of(rt.alloc(), "PRIVATE\nKEY", &KEY_DER)?.is_none(),
    );
    Ok(())
}
