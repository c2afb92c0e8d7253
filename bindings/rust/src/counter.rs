//! Counting what would be written.
use crate::error::{Error, answer};
use crate::sys::{self, RawCounter, RawMark};
use crate::tag::Tag;
use core::fmt;

/// Counts the octets that the same calls on a [`Writer`](crate::Writer) would write. Each error of the counter makes it
/// fail, and every later call on it fails: `Failed`, `Overflow` if there are more than 4294967295 octets, and
/// `TagNumberInvalid` if `tag` is not a tag. An error of the closure of [`inside`](Self::inside) does not: the element
/// stays open, and [`finish`](Self::finish) fails.
///
/// ```
/// use der_c::{Counter, Error, Tag};
/// # fn main() -> Result<(), Error> {
/// let mut counter = Counter::new();
/// counter.inside(Tag::SEQUENCE, |inside| inside.element(Tag::OCTET_STRING, 200))?;
/// assert_eq!(counter.finish()?, 206);
/// # Ok(())
/// # }
/// ```
#[derive(Clone, Default)]
pub struct Counter(RawCounter);

impl Counter {
    /// A counter of no octets.
    pub fn new() -> Self {
        Self::default()
    }

    /// Counts octets that are written unchanged.
    pub fn write(&mut self, length: usize) -> Result<(), Error> {
        answer(sys::der_count(&mut self.0, length))
    }

    /// Counts the header of an element with this tag and number of octets of contents.
    pub fn header(&mut self, tag: Tag, length: u32) -> Result<(), Error> {
        answer(sys::der_count_header(&mut self.0, tag.0, length))
    }

    /// Counts an element with so many octets of contents.
    pub fn element(&mut self, tag: Tag, length: u32) -> Result<(), Error> {
        answer(sys::der_count_element(&mut self.0, tag.0, length))
    }

    /// Counts an element whose contents are counted by `count`.
    pub fn inside<E: From<Error>>(
        &mut self,
        tag: Tag,
        count: impl FnOnce(&mut Self) -> Result<(), E>,
    ) -> Result<(), E> {
        let mut mark = RawMark::default();
        answer(sys::der_count_begin(&mut self.0, tag.0, &mut mark))?;
        count(self)?;
        Ok(answer(sys::der_count_end(&mut self.0, &mark))?)
    }

    /// How many octets are counted.
    ///
    /// # Errors
    ///
    /// `Failed` if the counter has failed; `Unbalanced` if an element is open, since `count` of
    /// [`inside`](Self::inside) returned an error.
    pub fn finish(&self) -> Result<u32, Error> {
        let mut count = 0;
        answer(sys::der_counted(&self.0, &mut count))?;
        Ok(count)
    }
}

impl fmt::Debug for Counter {
    fn fmt(&self, f: &mut fmt::Formatter<'_>) -> fmt::Result {
        f.debug_struct("Counter")
            .field("count", &self.0.count)
            .field("failed", &self.0.failed)
            .finish()
    }
}
