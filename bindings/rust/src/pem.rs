//! PEM texts (RFC 7468), and base64 (RFC 4648, section 4).
//!
//! Proved: what base64 is decoded to, what is written, which block is the next of a text, and that each call moves on
//! in the text, also after an error. Tested: that a block is encrypted.
//!
//! ```
//! use der_c::pem;
//! let mut space = [0; 128];
//! let text = pem::write("EXAMPLE", &[0x30, 0], &mut space).unwrap();
//! assert_eq!(text, "-----BEGIN EXAMPLE-----\nMAA=\n-----END EXAMPLE-----\n");
//! let mut octets = [0; 2];
//! let block = pem::blocks(text.as_bytes()).read(&mut octets).unwrap()?;
//! assert_eq!((block.label, block.octets), ("EXAMPLE", &[0x30, 0][..]));
//! # Ok::<(), pem::PemError>(())
//! ```
use crate::sys::{self, RawPemBlock, RawPemReader};
#[cfg(feature = "alloc")]
use alloc::{string::String, vec, vec::Vec};
use core::fmt;

/// What `der_pem_next` returns.
const BLOCK: u32 = 0;
const NONE: u32 = 1;
const ENCRYPTED: u32 = 3;

/// The number of characters of the base64 encoding of so many octets, with padding.
pub const fn base64_length(octets: usize) -> usize {
    octets.div_ceil(3).saturating_mul(4)
}

/// The number of octets that [`write()`] writes for a label of `label` octets and a block of `octets` octets.
pub const fn length(label: usize, octets: usize) -> usize {
    let text = base64_length(octets);
    label
        .saturating_mul(2)
        .saturating_add(text.saturating_add(text.div_ceil(64)).saturating_add(32))
}

/// What a call has written to the front of the space, if it has; it writes characters of ASCII.
fn text_of(space: &[u8], count: usize) -> Option<&str> {
    core::str::from_utf8(space.get(..count)?).ok()
}

/// Writes the base64 encoding of the octets, with padding and without white space. Returns `None` if there
/// is no room for [`base64_length`] characters; then nothing is written.
pub fn encode_base64<'s>(octets: &[u8], space: &'s mut [u8]) -> Option<&'s str> {
    // SAFETY: pointers and lengths describe slices, and the call writes the second alone.
    let count = unsafe { sys::der_base64_encode(octets.as_ptr(), octets.len(), space.as_mut_ptr(), space.len()) };
    text_of(space, count)
}

/// Decodes base64, which may have white space in it. Returns `None` if the text is not base64, or if its octets do not
/// fit; some of `space` may be written then. As many octets as the text has are always enough.
pub fn decode_base64<'s>(text: &[u8], space: &'s mut [u8]) -> Option<&'s [u8]> {
    // SAFETY: as above.
    let count = unsafe { sys::der_base64_decode(text.as_ptr(), text.len(), space.as_mut_ptr(), space.len()) };
    space.get(..count)
}

/// Writes a block of PEM, with base64 in lines of 64 characters, each of which ends in LF. Returns `None` if
/// there is no room for [`length()`] octets, or if the label is not one; then nothing is written. A label has printable
/// ASCII characters, and each `-` and each space in it is between two others (RFC 7468, section 3); it may be empty.
pub fn write<'s>(label: &str, octets: &[u8], space: &'s mut [u8]) -> Option<&'s str> {
    // SAFETY: pointers and lengths describe slices, and the call writes the third alone.
    let count = unsafe {
        sys::der_pem_write(
            label.as_ptr(),
            label.len(),
            octets.as_ptr(),
            octets.len(),
            space.as_mut_ptr(),
            space.len(),
        )
    };
    text_of(space, count)
}

/// The block that [`write()`] writes; `None` if the label is none.
#[cfg(feature = "alloc")]
pub fn to_string(label: &str, octets: &[u8]) -> Option<String> {
    let mut space = vec![0; length(label.len(), octets.len())];
    write(label, octets, &mut space).map(String::from)
}

/// A block of a PEM text.
#[derive(Clone, Copy, PartialEq, Eq, Hash, Debug)]
pub struct Block<'a, O> {
    /// The label, such as `CERTIFICATE`.
    pub label: &'a str,
    /// The line of `-----BEGIN`, counted from 1.
    pub line: usize,
    /// The octets that are encoded.
    pub octets: O,
}

/// Why a block is not read.
#[derive(Clone, Copy, PartialEq, Eq, Hash, Debug)]
pub struct PemError {
    line: usize,
    is_encrypted: bool,
}

impl PemError {
    /// The line of the error, counted from 1. For an encrypted block it is that of `-----BEGIN`.
    pub fn line(&self) -> usize {
        self.line
    }

    /// Whether the header Proc-Type says that the block is encrypted (RFC 1421, section 4.6.1.1). Its base64 is not
    /// checked.
    pub fn is_encrypted(&self) -> bool {
        self.is_encrypted
    }
}

impl fmt::Display for PemError {
    fn fmt(&self, f: &mut fmt::Formatter<'_>) -> fmt::Result {
        let why = if self.is_encrypted {
            "an encrypted block"
        } else {
            "no block of PEM, or no room for its octets"
        };
        write!(f, "line {}: {why}", self.line)
    }
}

impl core::error::Error for PemError {}

/// The blocks of a PEM text, in order; text between them is skipped.
pub fn blocks(text: &[u8]) -> Blocks<'_> {
    Blocks {
        text,
        position: 0,
        line: 0,
    }
}

/// The blocks of a PEM text that are left. After an error the blocks after it follow: the next block is sought after
/// the `-----BEGIN` line of the block with the error.
#[derive(Clone, Debug)]
pub struct Blocks<'a> {
    text: &'a [u8],
    position: usize,
    line: usize,
}

/// A block that was found: what `der_pem_next` returned, and what it set. Its fields are places in `text`.
struct Found<'a> {
    answer: u32,
    raw: RawPemBlock,
    text: &'a [u8],
}

impl<'a> Found<'a> {
    fn block<O>(&self, octets: O) -> Result<Block<'a, O>, PemError> {
        let line = self.raw.line;
        if self.answer != BLOCK {
            return Err(PemError {
                line,
                is_encrypted: self.answer == ENCRYPTED,
            });
        }
        let label = &self.text[self.raw.label..self.raw.label + self.raw.label_length];
        Ok(Block {
            label: core::str::from_utf8(label).unwrap_or_default(),
            line,
            octets,
        })
    }
}

impl<'a> Blocks<'a> {
    /// The next block, decoded into `space`; `None` if there is none.
    fn decode(&mut self, space: &mut [u8]) -> Option<Found<'a>> {
        let (text, mut raw) = (self.text, RawPemBlock::default());
        let mut reader = RawPemReader {
            text: text.as_ptr(),
            length: text.len(),
            position: self.position,
            line: self.line,
            ..RawPemReader::EMPTY
        };
        // SAFETY: pointers and lengths describe slices, and the call writes the second, the reader and the block alone.
        let answer = unsafe { sys::der_pem_next(&mut reader, space.as_mut_ptr(), space.len(), &mut raw) };
        (self.position, self.line) = (reader.position, reader.line);
        (answer != NONE).then_some(Found { answer, raw, text })
    }

    /// The next block, whose octets are decoded into `space`; `None` if there is no other one. As much space as the text
    /// has octets is enough.
    ///
    /// # Errors
    ///
    /// An error if the lines of the block are wrong, if it is not base64, if its octets do not fit, or if it is
    /// encrypted. The next call reads the next block, also after too little space. After an error some of `space` may be
    /// written.
    pub fn read<'s>(&mut self, space: &'s mut [u8]) -> Option<Result<Block<'a, &'s [u8]>, PemError>> {
        let found = self.decode(space)?;
        Some(found.block(&space[..found.raw.length]))
    }
}

/// Fails as [`read`](Blocks::read) does, but always has room.
#[cfg(feature = "alloc")]
impl<'a> Iterator for Blocks<'a> {
    type Item = Result<Block<'a, Vec<u8>>, PemError>;

    fn next(&mut self) -> Option<Self::Item> {
        // without room a block is found and not decoded
        let before = self.clone();
        let sought = self.decode(&mut [])?;
        if sought.raw.label == 0 {
            return Some(sought.block(Vec::new()));
        }
        // base64 of n octets has fewer
        let mut octets = vec![0; self.position - sought.raw.label];
        *self = before;
        let found = self.decode(&mut octets)?;
        octets.truncate(found.raw.length);
        Some(found.block(octets))
    }
}

#[cfg(feature = "alloc")]
impl core::iter::FusedIterator for Blocks<'_> {}
