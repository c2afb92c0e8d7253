//! OBJECT IDENTIFIERs that own their octets.
use crate::error::Error;
use crate::oid::Oid;
use crate::sys;
use core::cmp::Ordering;
use core::fmt;
use core::hash::{Hash, Hasher};
use core::str::FromStr;

/// How many contents octets there is room for.
const MOST: usize = 63;

/// An OBJECT IDENTIFIER with its contents octets, at most 63. [`Oid`] borrows them instead, and may have
/// more.
///
/// ```
/// use der_c::ObjectIdentifier;
/// # fn main() -> Result<(), der_c::Error> {
/// let common_name: ObjectIdentifier = "2.5.4.3".parse()?;
/// assert_eq!(common_name.as_oid().contents(), [0x55, 4, 3]);
/// assert_eq!(common_name.to_string(), "2.5.4.3");
/// # Ok(())
/// # }
/// ```
#[derive(Clone, Copy)]
pub struct ObjectIdentifier {
    octets: [u8; MOST],
    length: u8,
}

impl ObjectIdentifier {
    /// The same identifier, borrowed.
    pub fn as_oid(&self) -> Oid<'_> {
        Oid {
            contents: &self.octets[..usize::from(self.length)],
        }
    }
}

/// The identifier with this text in dotted notation. Fails as [`Oid::from_text`] does with 63 octets of space: with
/// [`ObjectIdentifier`](crate::ErrorKind::ObjectIdentifier) if the text is not one, with
/// [`Overflow`](crate::ErrorKind::Overflow) if a subidentifier needs more than 128 bits or all need more than 256 octets,
/// and with [`Overlength`](crate::ErrorKind::Overlength) if they need 64 to 256 octets.
impl FromStr for ObjectIdentifier {
    type Err = Error;

    fn from_str(text: &str) -> Result<Self, Error> {
        let mut octets = [0; MOST];
        let length = Oid::from_text(text, &mut octets)?.contents.len() as u8;
        Ok(ObjectIdentifier { octets, length })
    }
}

/// Fails with [`Overlength`](crate::ErrorKind::Overlength) if there are more than 63 contents octets.
impl TryFrom<Oid<'_>> for ObjectIdentifier {
    type Error = Error;

    fn try_from(oid: Oid<'_>) -> Result<Self, Error> {
        let length = oid.contents.len();
        let mut octets = [0; MOST];
        let space = octets.get_mut(..length).ok_or(Error::of_kind(sys::OVERLENGTH))?;
        space.copy_from_slice(oid.contents);
        Ok(ObjectIdentifier {
            octets,
            length: length as u8,
        })
    }
}

impl<'a> From<&'a ObjectIdentifier> for Oid<'a> {
    fn from(identifier: &'a ObjectIdentifier) -> Self {
        identifier.as_oid()
    }
}

impl PartialEq for ObjectIdentifier {
    fn eq(&self, other: &Self) -> bool {
        self.as_oid() == other.as_oid()
    }
}

impl Eq for ObjectIdentifier {}

impl PartialEq<Oid<'_>> for ObjectIdentifier {
    fn eq(&self, other: &Oid<'_>) -> bool {
        self.as_oid() == *other
    }
}

impl PartialEq<ObjectIdentifier> for Oid<'_> {
    fn eq(&self, other: &ObjectIdentifier) -> bool {
        *self == other.as_oid()
    }
}

impl PartialEq<str> for ObjectIdentifier {
    fn eq(&self, text: &str) -> bool {
        self.as_oid() == *text
    }
}

impl PartialOrd for ObjectIdentifier {
    fn partial_cmp(&self, other: &Self) -> Option<Ordering> {
        Some(self.cmp(other))
    }
}

/// The order of the contents octets, as that of [`Oid`].
impl Ord for ObjectIdentifier {
    fn cmp(&self, other: &Self) -> Ordering {
        self.as_oid().cmp(&other.as_oid())
    }
}

impl Hash for ObjectIdentifier {
    fn hash<H: Hasher>(&self, state: &mut H) {
        self.as_oid().hash(state);
    }
}

/// Prints the dotted notation, as [`Oid`] does.
impl fmt::Display for ObjectIdentifier {
    fn fmt(&self, f: &mut fmt::Formatter<'_>) -> fmt::Result {
        fmt::Display::fmt(&self.as_oid(), f)
    }
}

/// Prints what [`Display`](fmt::Display) prints, inside `ObjectIdentifier(..)`.
impl fmt::Debug for ObjectIdentifier {
    fn fmt(&self, f: &mut fmt::Formatter<'_>) -> fmt::Result {
        write!(f, "ObjectIdentifier({self})")
    }
}
