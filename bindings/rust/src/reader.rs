//! Reading.
use crate::element::{Element, Header};
use crate::error::{Error, answer};
use crate::sys::{self, Node, RawElement, RawHeader, RawReader, RawSpan};
use crate::tag::Tag;
use core::fmt;
use core::hash::{Hash, Hasher};
use core::iter::FusedIterator;

/// A reader of octets. It is a small value: a copy reads on independently.
///
/// Check the result of each call that reads. After an error the reader has failed: it does not move, and every later
/// call that reads fails with [`ErrorKind::Failed`](crate::ErrorKind::Failed). So end a loop over
/// [`is_finished`](Self::is_finished) at the first error. Two errors leave the reader as it was, not failed:
/// [`TagUnexpected`](crate::ErrorKind::TagUnexpected), and [`Reader`](crate::ErrorKind::Reader) for an element of
/// other octets. After these, later calls and [`finish`](Self::finish) may succeed.
///
/// A call that takes `&self`, such as [`peek`](Self::peek), never changes the reader. `finish`, `tree`, `elements` and
/// a `for` loop take a copy: the reader itself stays where it was.
///
/// ```
/// use der_c::{Reader, Tag};
/// # fn main() -> Result<(), der_c::Error> {
/// let mut reader = Reader::der(&[0x30, 3, 2, 1, 7])?;
/// let mut inside = reader.enter(Tag::SEQUENCE)?;
/// assert_eq!(inside.expect(Tag::INTEGER)?.contents(), [7]);
/// assert_eq!(inside.optional(Tag::BOOLEAN)?, None);
/// inside.finish()?;
/// reader.finish()
/// # }
/// ```
#[derive(Clone, Copy)]
pub struct Reader<'a>(pub(crate) RawReader<'a>);

// SAFETY: a reader consists of numbers and a `&[u8]`.
unsafe impl Send for Reader<'_> {}
// SAFETY: as above.
unsafe impl Sync for Reader<'_> {}

impl<'a> Reader<'a> {
    /// A reader under the Distinguished Encoding Rules.
    ///
    /// # Errors
    ///
    /// `Overflow` if there are more than 4294967295 octets.
    pub fn der(octets: &'a [u8]) -> Result<Self, Error> {
        Self::new(octets, false)
    }

    /// A reader under the Basic Encoding Rules: it also reads indefinite lengths, and OCTET STRINGs in segments.
    ///
    /// # Errors
    ///
    /// `Overflow` if there are more than 4294967295 octets.
    pub fn ber(octets: &'a [u8]) -> Result<Self, Error> {
        Self::new(octets, true)
    }

    fn new(octets: &'a [u8], ber: bool) -> Result<Self, Error> {
        let mut raw = RawReader::EMPTY;
        // SAFETY: pointer and length describe a slice, which the reader borrows for 'a.
        answer(unsafe { sys::der_reader_init(octets.as_ptr(), octets.len(), ber, &mut raw) })?;
        Ok(Reader(raw))
    }

    /// Reads the next header; the reader is then at the contents. Under BER, contents of an indefinite length are
    /// scanned for their end.
    ///
    /// # Errors
    ///
    /// `Failed`, `Incomplete`, `Overflow`, `TagUnknown`, `TagNumberInvalid`, `IndefiniteLength`, `Length`; and
    /// `NestingDepth` if contents of an indefinite length are nested too deeply.
    #[inline]
    pub fn header(&mut self) -> Result<Header, Error> {
        let mut raw = RawHeader::default();
        answer(sys::der_read_header(&mut self.0, &mut raw))?;
        Ok(Header::from(raw))
    }

    /// Consumes the next element.
    ///
    /// # Errors
    ///
    /// Those of [`header`](Self::header); `Incomplete` and `Overflow` if the contents are cut.
    #[inline]
    pub fn skip(&mut self) -> Result<(), Error> {
        answer(sys::der_skip(&mut self.0))
    }

    /// Returns the number of octets of indefinite-length contents, end-of-contents octets included,
    /// and consumes them. The reader has to be just after octet `0x80`, and read under BER.
    ///
    /// # Errors
    ///
    /// `EncodingRules` if the reader does not read BER; otherwise the first error in the contents.
    pub fn scan(&mut self) -> Result<u32, Error> {
        let mut count = 0;
        answer(sys::der_scan(&mut self.0, &mut count))?;
        Ok(count)
    }

    /// Reads the next element.
    ///
    /// # Errors
    ///
    /// Those of [`header`](Self::header); `Incomplete` and `Overflow` if the contents are cut.
    #[inline]
    pub fn read(&mut self) -> Result<Element<'a>, Error> {
        let mut element = RawElement::EMPTY;
        answer(sys::der_read_element(&mut self.0, &mut element))?;
        Ok(Element(element))
    }

    /// Reads the next element, which must have this tag. Under BER, ask [`Element::is_constructed`] before you use the
    /// contents of an OCTET STRING: if it is in segments, they are the encodings of the segments.
    ///
    /// # Errors
    ///
    /// Those of [`read`](Self::read); `TagUnexpected` at the next element, which leaves the reader as it was;
    /// `TagNumberInvalid` if `tag` is not a tag and there is a next element.
    #[inline]
    pub fn expect(&mut self, tag: Tag) -> Result<Element<'a>, Error> {
        let mut element = RawElement::EMPTY;
        answer(sys::der_expect(&mut self.0, tag.0, &mut element))?;
        Ok(Element(element))
    }

    /// Reads the next element if it has this tag. At the end, and if the next element has another tag, returns `None`,
    /// and the reader stays where it was.
    ///
    /// # Errors
    ///
    /// Those of [`read`](Self::read), also for the header of an element with another tag; `TagNumberInvalid` if `tag`
    /// is not a tag and there is a next element.
    #[inline]
    pub fn optional(&mut self, tag: Tag) -> Result<Option<Element<'a>>, Error> {
        let (mut element, mut present) = (RawElement::EMPTY, false);
        answer(sys::der_optional(&mut self.0, tag.0, &mut element, &mut present))?;
        Ok(present.then_some(Element(element)))
    }

    /// The tag of the next element, which is not consumed. Only the identifier is read, so the call that
    /// reads the element may still fail.
    ///
    /// # Errors
    ///
    /// `Failed`; `Incomplete` or `Overflow` if the identifier is cut or no octets are left; `TagUnknown`
    /// and `TagNumberInvalid`. The reader does not fail by them.
    #[inline]
    pub fn peek(&self) -> Result<Tag, Error> {
        let mut tag = 0;
        answer(sys::der_peek(&self.0, &mut tag))?;
        Ok(Tag(tag))
    }

    /// Whether the next element has this tag; false if no octets are left, if the reader has failed, and
    /// if the next octets are no identifier.
    #[inline]
    pub fn next_is(&self, tag: Tag) -> bool {
        sys::der_next_is(&self.0, tag.0)
    }

    /// Reads a value with OPTIONAL or DEFAULT: returns what `read` returns if the next element has this
    /// tag. Otherwise returns `None` or fails as [`optional`](Self::optional) does.
    ///
    /// ```
    /// use der_c::{Reader, Tag};
    /// # fn main() -> Result<(), der_c::Error> {
    /// let mut reader = Reader::der(&[2, 1, 7])?;
    /// let is_critical = reader.read_optional(Tag::BOOLEAN, Reader::boolean)?.unwrap_or(false);
    /// let number = reader.read_optional(Tag::INTEGER, Reader::uint64)?;
    /// let comment = reader.read_optional(Tag::UTF8_STRING, |it, tag| it.text(tag, Tag::UTF8_STRING))?;
    /// assert_eq!((is_critical, number, comment), (false, Some(7), None));
    /// # reader.finish()
    /// # }
    /// ```
    #[inline]
    pub fn read_optional<T, E: From<Error>>(
        &mut self,
        tag: Tag,
        read: impl FnOnce(&mut Self, Tag) -> Result<T, E>,
    ) -> Result<Option<T>, E> {
        if self.next_is(tag) {
            return read(self, tag).map(Some);
        }
        // no element with the tag is next: this call reports a reader that has failed, and a fault
        self.optional(tag)?;
        Ok(None)
    }

    /// Consumes the next element, which must have this tag, and returns a reader of its contents. Call `finish` on that
    /// reader: octets may be left in it.
    ///
    /// # Errors
    ///
    /// Those of [`expect`](Self::expect); `NestingDepth` if the element is inside 64 others.
    #[inline]
    pub fn enter(&mut self, tag: Tag) -> Result<Reader<'a>, Error> {
        let mut inside = RawReader::EMPTY;
        answer(sys::der_enter(&mut self.0, tag.0, &mut inside))?;
        Ok(Reader(inside))
    }

    /// Fails with [`Reader`](crate::ErrorKind::Reader) if an element lies in other octets than those of
    /// this reader. The library sees only whether its positions are in them.
    #[inline]
    fn owns(&self, element: &Element<'a>) -> Result<(), Error> {
        let place = self.0.octets.wrapping_add(element.0.contents_start as usize);
        if self.0.failed || place == element.0.contents {
            return Ok(());
        }
        Err(Error::of_kind(sys::READER))
    }

    /// A reader of the contents of an element that this reader, or a copy of it, has read. This reader stays where it
    /// is.
    ///
    /// # Errors
    ///
    /// `Failed` if this reader has failed; [`Reader`](crate::ErrorKind::Reader) for an element of other octets;
    /// `NestingDepth` if the element is inside 64 others, and then this reader has failed.
    #[inline]
    pub fn open(&mut self, element: &Element<'a>) -> Result<Reader<'a>, Error> {
        self.owns(element)?;
        let mut inside = RawReader::EMPTY;
        answer(sys::der_open(&mut self.0, &element.0, &mut inside))?;
        Ok(Reader(inside))
    }

    /// All octets of an element that this reader, or a copy of it, has read: its header, contents
    /// and end-of-contents octets, as they are signed or hashed.
    ///
    /// # Errors
    ///
    /// `Failed` if the reader has failed; [`Reader`](crate::ErrorKind::Reader) for an element of other octets.
    pub fn octets_of(&self, element: &Element<'a>) -> Result<&'a [u8], Error> {
        self.owns(element)?;
        let mut span = RawSpan::EMPTY;
        answer(sys::der_element_octets(&self.0, &element.0, &mut span))?;
        Ok(span.octets())
    }

    /// The octets that are left.
    pub(crate) fn rest(&self) -> &'a [u8] {
        // SAFETY: proved: the position is at most the end, which is in the input that is borrowed for 'a.
        unsafe {
            core::slice::from_raw_parts(
                self.0.octets.add(self.0.position),
                self.0.end as usize - self.0.position,
            )
        }
    }

    /// How many elements are left: each has two octets at least, except one that is refused.
    pub(crate) fn size_hint(&self) -> (usize, Option<usize>) {
        let count = self.rest().len();
        (count.min(1), Some(count.div_ceil(2)))
    }

    /// Where the reader is, in octets from the start of the input.
    #[inline]
    pub fn position(&self) -> usize {
        // The result that a call of `der_position` has: only the library sets this field.
        self.0.position
    }

    /// Whether no octets are left.
    #[inline]
    pub fn is_finished(&self) -> bool {
        // The result that a call of `der_is_finished` has: only the library sets these fields.
        self.0.position == self.0.end as usize
    }

    /// Fails if octets are left or the reader has failed.
    pub fn finish(self) -> Result<(), Error> {
        answer(sys::der_finish(&self.0))
    }

    /// The elements that are left. A copy of the reader reads: this one stays where it is. If the reader has failed, the
    /// first item is the error `Failed`; there is no item if no octets are left.
    pub fn elements(self) -> Elements<'a> {
        self.into_iter()
    }

    /// Fills `nodes` with the elements that are left and those inside them, each before those inside it, and returns
    /// their number. An element that 32 others enclose is one node, without those inside it. A copy of the reader
    /// reads: this one stays where it is.
    ///
    /// # Errors
    ///
    /// Those of [`read`](Self::read); `Overlength` if there are too few nodes. The nodes before the error are set, but
    /// their number is not returned.
    pub fn tree(mut self, nodes: &mut [Node]) -> Result<usize, Error> {
        let mut count = 0;
        // SAFETY: pointer and length describe a slice, and the call only writes it.
        answer(unsafe { sys::der_read_tree(&mut self.0, nodes.as_mut_ptr(), nodes.len(), &mut count) })?;
        Ok(count)
    }
}

/// Two readers are equal if they read the same memory, under the same rules, at the same place and depth, and both or
/// neither have failed.
impl PartialEq for Reader<'_> {
    fn eq(&self, other: &Self) -> bool {
        let place = |it: &RawReader| (it.octets, it.length, it.position, it.end, it.depth, it.ber, it.failed);
        place(&self.0) == place(&other.0)
    }
}

impl Eq for Reader<'_> {}

impl Hash for Reader<'_> {
    fn hash<H: Hasher>(&self, state: &mut H) {
        (self.0.octets, self.0.position, self.0.end).hash(state);
    }
}

impl fmt::Debug for Reader<'_> {
    fn fmt(&self, f: &mut fmt::Formatter<'_>) -> fmt::Result {
        f.debug_struct("Reader")
            .field("position", &self.0.position)
            .field("end", &self.0.end)
            .field("rules", &if self.0.ber { "BER" } else { "DER" })
            .field("failed", &self.0.failed)
            .finish()
    }
}

/// The elements that are left in a [`Reader`]; the iterator ends after an error.
///
/// ```
/// use der_c::Reader;
/// # fn main() -> Result<(), der_c::Error> {
/// for element in Reader::der(&[2, 1, 7, 5, 0])? {
///     println!("{}", element?.tag());
/// }
/// # Ok(())
/// # }
/// ```
#[derive(Clone, Debug)]
pub struct Elements<'a> {
    reader: Reader<'a>,
    is_refused: bool,
}

/// The elements that are left, as [`elements`](Reader::elements) returns them.
impl<'a> IntoIterator for Reader<'a> {
    type Item = Result<Element<'a>, Error>;
    type IntoIter = Elements<'a>;

    fn into_iter(self) -> Elements<'a> {
        Elements {
            reader: self,
            is_refused: false,
        }
    }
}

impl<'a> Iterator for Elements<'a> {
    type Item = Result<Element<'a>, Error>;

    fn size_hint(&self) -> (usize, Option<usize>) {
        if self.is_refused {
            (0, Some(0))
        } else {
            self.reader.size_hint()
        }
    }

    #[inline]
    fn next(&mut self) -> Option<Self::Item> {
        if self.is_refused || self.reader.is_finished() {
            return None;
        }
        let read = self.reader.read();
        self.is_refused = read.is_err();
        Some(read)
    }
}

impl FusedIterator for Elements<'_> {}
