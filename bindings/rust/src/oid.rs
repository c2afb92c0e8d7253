//! OBJECT IDENTIFIERs.
use crate::error::{Error, answer};
use crate::octets::Hex;
use crate::sys;
use core::fmt;

/// An OBJECT IDENTIFIER (X.690 8.19), borrowed from the input. It is compared with a text in dotted
/// notation by `==`, and printed in it.
///
/// ```
/// use der_c::{Reader, Tag};
/// # fn main() -> Result<(), der_c::Error> {
/// let oid = Reader::der(&[6, 3, 0x55, 4, 3])?.oid(Tag::OBJECT_IDENTIFIER)?;
/// assert_eq!(oid, *"2.5.4.3");
/// assert_eq!(oid.to_string(), "2.5.4.3");
/// # Ok(())
/// # }
/// ```
#[derive(Clone, Copy, PartialEq, Eq, PartialOrd, Ord, Hash)]
pub struct Oid<'a> {
    pub(crate) contents: &'a [u8],
}

impl<'a> Oid<'a> {
    /// The identifier with this text in dotted notation. Its contents octets are written into `space`,
    /// which it borrows.
    ///
    /// # Errors
    ///
    /// [`ObjectIdentifier`](crate::ErrorKind::ObjectIdentifier) if the text is none, however large its
    /// numbers are; [`Overflow`](crate::ErrorKind::Overflow) if it is one, and a subidentifier needs more
    /// than 128 bits or all of them more than 256 octets; [`Overlength`](crate::ErrorKind::Overlength) if
    /// there is too little space.
    pub fn from_text(text: &str, space: &'a mut [u8]) -> Result<Self, Error> {
        let mut count = 0;
        // SAFETY: pointers and lengths describe slices, and the call writes the second alone.
        answer(unsafe {
            sys::der_oid_from_text(text.as_ptr(), text.len(), space.as_mut_ptr(), space.len(), &mut count)
        })?;
        Ok(Oid {
            contents: &space[..count],
        })
    }

    /// The arcs, which are written into `space`: at most one more than there are contents octets.
    ///
    /// # Errors
    ///
    /// [`Overflow`](crate::ErrorKind::Overflow) if an arc needs more than 64 bits;
    /// [`Overlength`](crate::ErrorKind::Overlength) if there is too little space.
    pub fn arcs<'s>(&self, space: &'s mut [u64]) -> Result<&'s [u64], Error> {
        let Oid { contents } = *self;
        let mut count = 0;
        // SAFETY: pointers and lengths describe slices, and the call writes the second alone.
        answer(unsafe {
            sys::der_oid_arcs(
                contents.as_ptr(),
                contents.len(),
                space.as_mut_ptr(),
                space.len(),
                &mut count,
            )
        })?;
        Ok(&space[..count])
    }

    /// The contents octets.
    pub fn contents(&self) -> &'a [u8] {
        self.contents
    }
}

/// Whether the identifier has this text in dotted notation. False if a subidentifier of the identifier has more than 128
/// bits, or if the text has leading zeros.
impl PartialEq<str> for Oid<'_> {
    fn eq(&self, text: &str) -> bool {
        let Oid { contents } = *self;
        // SAFETY: pointers and lengths describe slices, and the call only reads them.
        unsafe { sys::der_oid_is(contents.as_ptr(), contents.len(), text.as_ptr(), text.len()) }
    }
}

/// How many octets of text are printed at most.
const SPACE: usize = 1024;

impl Oid<'_> {
    fn write_text<'t>(&self, space: &'t mut [u8; SPACE]) -> Result<&'t str, Error> {
        let Oid { contents } = *self;
        let mut count = 0;
        // SAFETY: pointers and lengths describe slices, and the call writes the second alone.
        answer(unsafe { sys::der_oid_text(contents.as_ptr(), contents.len(), space.as_mut_ptr(), SPACE, &mut count) })?;
        Ok(core::str::from_utf8(&space[..count]).unwrap_or_default())
    }
}

/// Prints the arcs in decimal, separated by dots. An identifier whose text has 1024 octets or more, or
/// with a subidentifier of more than 128 bits, is printed as its contents octets in hexadecimal, after `#`.
impl fmt::Display for Oid<'_> {
    fn fmt(&self, f: &mut fmt::Formatter<'_>) -> fmt::Result {
        match self.write_text(&mut [0; SPACE]) {
            Ok(text) => f.pad(text),
            Err(_) => write!(f, "#{:?}", Hex(self.contents)),
        }
    }
}

/// Prints what [`Display`](fmt::Display) prints, inside `Oid(..)`.
impl fmt::Debug for Oid<'_> {
    fn fmt(&self, f: &mut fmt::Formatter<'_>) -> fmt::Result {
        write!(f, "Oid({self})")
    }
}
