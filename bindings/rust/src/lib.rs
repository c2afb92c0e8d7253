//! A safe reader and writer of DER (ITU-T X.690), and a reader of BER, over the proved library
//! `libder_c.a`: elements, values, certificates, keys and PEM. Only the iterator over PEM blocks and
//! [`pem::to_string`] allocate. Lengths and positions are in octets.
//!
//! Nothing is validated: no signature, no chain of certificates, no date against a clock.
//!
//! Two errors of a [`Reader`] leave it as it was; after any other, every later call on it fails. Of BER it reads
//! indefinite lengths, and an OCTET STRING in segments. It does not join the segments: if [`Element::is_constructed`]
//! is true for an OCTET STRING, its contents are the encodings of the segments. It refuses lengths in more octets than
//! necessary, and other constructed strings.
//!
//! # Features
//!
//! `std`, which is a default, converts a [`Time`] from and to `SystemTime`. `alloc`, which `std` includes,
//! iterates over the blocks of a PEM text ([`pem`]) and writes one as a `String`. Without them nothing
//! needs an allocator.
#![no_std]

#[cfg(feature = "alloc")]
extern crate alloc;
#[cfg(feature = "std")]
extern crate std;

mod assembly;
mod certificate;
mod counter;
mod element;
mod error;
mod extension;
mod general_name;
pub mod id;
mod items;
mod list;
mod name;
mod object_identifier;
mod octets;
mod oid;
pub mod pem;
mod private_key;
mod reader;
mod request;
mod revocation_list;
mod sys;
mod tag;
mod time;
mod value;
mod writer;

pub use assembly::CertificateParts;
pub use certificate::{Algorithm, Any, Certificate, PublicKey};
use core::cmp::Ordering;
pub use counter::Counter;
pub use element::{Element, Header};
use error::answer;
pub use error::{Error, ErrorKind};
pub use extension::{AuthorityKeyIdentifier, BasicConstraints, Extension, ExtensionIter, Extensions, KeyUsage};
pub use general_name::{GeneralName, GeneralNameIter, GeneralNames};
pub use items::ItemIter;
pub use list::{AccessDescription, DistributionPoint, Items};
pub use name::{Attribute, Attributes, Name, RelativeName, is_hidden};
pub use object_identifier::ObjectIdentifier;
pub use oid::Oid;
pub use private_key::PrivateKey;
pub use reader::{Elements, Reader};
pub use request::Request;
pub use revocation_list::{Entries, EntryIter, RevocationList, Revoked};
pub use sys::Node;
pub use tag::Tag;
pub use time::Time;
pub use value::{Bits, Characters, Text};
pub use writer::{Writer, element_length};

/// The order of two whole elements in a SET OF (X.690 11.6).
///
/// # Errors
///
/// Fails if `first`, or else `second`, is not exactly one element under DER.
pub fn compare(first: &[u8], second: &[u8]) -> Result<Ordering, Error> {
    let mut order = 0;
    // SAFETY: pointers and lengths describe slices, and the call only reads them.
    answer(unsafe { sys::der_compare(first.as_ptr(), first.len(), second.as_ptr(), second.len(), &mut order) })?;
    Ok(order.cmp(&0))
}

/// The version of the library: 10000 times the major number, plus 100 times the minor number, plus
/// the patch number.
pub fn version() -> u32 {
    sys::der_version()
}

/// The examples of the page are compiled and run as tests.
#[cfg(all(doctest, feature = "std"))]
#[doc = include_str!("../README.md")]
pub struct Readme;
