//! Headers and elements.
use crate::octets::Hex;
use crate::sys::{RawElement, RawHeader};
use crate::tag::Tag;
use core::fmt;
use core::hash::{Hash, Hasher};

/// The header of an element.
#[derive(Clone, Copy, PartialEq, Eq, Hash, Debug)]
pub struct Header {
    /// The tag.
    pub tag: Tag,
    /// How many octets of contents there are, with the end-of-contents octets of an indefinite
    /// length.
    pub length: u32,
    /// Whether the identifier has the constructed bit.
    pub constructed: bool,
    /// Whether the length was read in the indefinite form.
    pub indefinite: bool,
}

impl From<RawHeader> for Header {
    #[inline(always)]
    fn from(raw: RawHeader) -> Self {
        let RawHeader {
            tag,
            length,
            constructed,
            indefinite,
        } = raw;
        Header {
            tag: Tag(tag),
            length,
            constructed,
            indefinite,
        }
    }
}

/// An element, whose contents borrow from the input of the reader. Two elements are equal if they have the same tag,
/// the same contents, the same place in their input, and if both or neither are constructed and of indefinite length.
#[derive(Clone, Copy)]
pub struct Element<'a>(pub(crate) RawElement<'a>);

// SAFETY: an element consists of numbers and a `&[u8]`, all of which are `Send` and `Sync`.
unsafe impl Send for Element<'_> {}
// SAFETY: as above.
unsafe impl Sync for Element<'_> {}

impl<'a> Element<'a> {
    /// The tag.
    #[inline]
    pub fn tag(&self) -> Tag {
        Tag(self.0.tag)
    }

    /// The contents, without end-of-contents octets.
    #[inline]
    pub fn contents(&self) -> &'a [u8] {
        // SAFETY: proved: they lie in the octets of the reader, which live for 'a.
        unsafe { core::slice::from_raw_parts(self.0.contents, self.0.length) }
    }

    /// Whether the identifier has the constructed bit.
    #[inline]
    pub fn is_constructed(&self) -> bool {
        self.0.constructed
    }

    /// Whether the length was read in the indefinite form.
    #[inline]
    pub fn is_indefinite(&self) -> bool {
        self.0.indefinite
    }

    /// Where the header begins, in octets from the start of the input.
    #[inline]
    pub fn start(&self) -> u32 {
        self.0.start
    }

    /// Where the contents begin, in octets from the start of the input.
    #[inline]
    pub fn contents_start(&self) -> u32 {
        self.0.contents_start
    }
}

impl PartialEq for Element<'_> {
    fn eq(&self, other: &Self) -> bool {
        self.tag() == other.tag()
            && self.start() == other.start()
            && self.contents_start() == other.contents_start()
            && self.is_constructed() == other.is_constructed()
            && self.is_indefinite() == other.is_indefinite()
            && self.contents() == other.contents()
    }
}

impl Eq for Element<'_> {}

impl Hash for Element<'_> {
    fn hash<H: Hasher>(&self, state: &mut H) {
        (self.tag(), self.start(), self.contents()).hash(state);
    }
}

impl fmt::Debug for Element<'_> {
    fn fmt(&self, f: &mut fmt::Formatter<'_>) -> fmt::Result {
        f.debug_struct("Element")
            .field("tag", &self.tag())
            .field("start", &self.start())
            .field("contents", &Hex(self.contents()))
            .finish()
    }
}
