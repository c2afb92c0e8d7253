//! Elements of `der::example`, read and written.
use der::example::{BorrowedOctets, JoinedOctets, OwnedText};
use der::{DecodeBytes, Encode, Error};
use std::alloc::Global;

/// A borrowed OCTET STRING, under the Distinguished Encoding Rules.
pub fn borrowed_of_der(alloc: Global, octets: &[u8]) -> Result<BorrowedOctets<'_>, Error> {
    BorrowedOctets::from_der(alloc, octets)
}

/// Its encoding.
pub fn borrowed_to_der(alloc: Global, borrowed: &BorrowedOctets<'_>) -> Result<Vec<u8>, Error> {
    borrowed.to_der(alloc)
}

/// An owned text, under the Distinguished Encoding Rules.
pub fn text_of_der(alloc: Global, octets: &[u8]) -> Result<OwnedText, Error> {
    OwnedText::from_der(alloc, octets)
}

/// Its encoding.
pub fn text_to_der(alloc: Global, text: &OwnedText) -> Result<Vec<u8>, Error> {
    text.to_der(alloc)
}

/// An OCTET STRING, possibly in segments, under the Basic Encoding Rules.
pub fn joined_of_ber(alloc: Global, octets: &[u8]) -> Result<JoinedOctets, Error> {
    JoinedOctets::from_ber(alloc, octets)
}

/// An OCTET STRING, possibly in segments, under the Distinguished Encoding Rules.
pub fn joined_of_der(alloc: Global, octets: &[u8]) -> Result<JoinedOctets, Error> {
    JoinedOctets::from_der(alloc, octets)
}

/// Its encoding.
pub fn joined_to_der(alloc: Global, joined: &JoinedOctets) -> Result<Vec<u8>, Error> {
    joined.to_der(alloc)
}
