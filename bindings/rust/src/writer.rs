//! Writing.
use crate::error::{Error, answer};
use crate::sys::{self, RawMark, RawWriter};
use crate::tag::Tag;
use core::fmt;
use core::mem::MaybeUninit;

/// A writer into octets that the caller owns.
///
/// Any error makes the writer fail, and every later call on it fails; so a function may ignore the
/// errors of a sequence of calls and check once, by [`finish`](Self::finish).
///
/// ```
/// use der_c::{Error, Tag, Writer};
/// # fn main() -> Result<(), Error> {
/// let mut octets = [0; 16];
/// let mut writer = Writer::new(&mut octets);
/// writer.inside(Tag::SEQUENCE, |inside| {
///     inside.element(Tag::INTEGER, &[7])?;
///     inside.element(Tag::NULL, &[])
/// })?;
/// assert_eq!(writer.finish()?, [0x30, 5, 2, 1, 7, 5, 0]);
/// # Ok(())
/// # }
/// ```
pub struct Writer<'a>(pub(crate) RawWriter<'a>);

// SAFETY: a writer consists of numbers and a `&mut [u8]`, which are `Send`.
unsafe impl Send for Writer<'_> {}
// SAFETY: through a `&Writer` nothing is written.
unsafe impl Sync for Writer<'_> {}

impl<'a> Writer<'a> {
    /// A writer into these octets, from their start. At most 4294967295 octets are written.
    pub fn new(octets: &'a mut [u8]) -> Self {
        // SAFETY: pointer and length describe a slice, which the writer borrows for 'a.
        unsafe { Self::over(octets.as_mut_ptr(), octets.len()) }
    }

    /// A writer into a buffer that need not be initialised. It is not read before it is written.
    pub fn uninit(octets: &'a mut [MaybeUninit<u8>]) -> Self {
        // SAFETY: pointer and length describe a slice, which the writer borrows for 'a. The library
        // reads only octets that it has written.
        unsafe { Self::over(octets.as_mut_ptr().cast(), octets.len()) }
    }

    unsafe fn over(octets: *mut u8, length: usize) -> Self {
        let mut raw = RawWriter::EMPTY;
        // SAFETY: as the caller ensures.
        unsafe { sys::der_writer_init(octets, length, &mut raw) };
        Writer(raw)
    }

    /// Writes the header of an element with this tag and number of octets of contents.
    ///
    /// # Errors
    ///
    /// Those of [`element`](Self::element).
    #[inline]
    pub fn header(&mut self, tag: Tag, length: u32) -> Result<(), Error> {
        answer(sys::der_write_header(&mut self.0, tag.0, length))
    }

    /// Writes an element.
    ///
    /// # Errors
    ///
    /// `Failed`; `Overlength` if there is too little space; `Overflow` if there would be more than 4294967295 octets;
    /// `TagNumberInvalid` if `tag` is not a tag. Octets of the header may stay written.
    #[inline]
    pub fn element(&mut self, tag: Tag, contents: &[u8]) -> Result<(), Error> {
        // SAFETY: pointer and length describe a slice, and the call only reads it.
        answer(unsafe { sys::der_write_element(&mut self.0, tag.0, contents.as_ptr(), contents.len()) })
    }

    /// Writes an element whose contents are written by `write`, which may return an error of its
    /// own. If it does, the writer fails.
    #[inline]
    pub fn inside<E: From<Error>>(
        &mut self,
        tag: Tag,
        write: impl FnOnce(&mut Self) -> Result<(), E>,
    ) -> Result<(), E> {
        let mark = self.begun(tag, write)?;
        Ok(answer(sys::der_end(&mut self.0, &mark))?)
    }

    /// Writes a SET OF, or an element with another tag whose contents are in the order of a SET OF (X.690 11.6). Sorts
    /// `elements`, each of which must be the encoding of one element; this is not checked.
    pub fn set_of(&mut self, tag: Tag, elements: &mut [&[u8]]) -> Result<(), Error> {
        sort_set(elements);
        self.inside(tag, |inside| elements.iter().try_for_each(|it| inside.write(it)))
    }

    /// Begins an element and writes its contents.
    #[inline]
    fn begun<E: From<Error>>(
        &mut self,
        tag: Tag,
        write: impl FnOnce(&mut Self) -> Result<(), E>,
    ) -> Result<RawMark, E> {
        let mut mark = RawMark::default();
        answer(sys::der_begin(&mut self.0, tag.0, &mut mark))?;
        if let Err(error) = write(self) {
            sys::der_writer_fail(&mut self.0);
            return Err(error);
        }
        Ok(mark)
    }

    /// Writes octets unchanged. Fails as [`element`](Self::element) does, and then writes nothing.
    #[inline]
    pub fn write(&mut self, octets: &[u8]) -> Result<(), Error> {
        // SAFETY: pointer and length describe a slice, and the call only reads it.
        answer(unsafe { sys::der_write(&mut self.0, octets.as_ptr(), octets.len()) })
    }

    /// How many octets are written.
    pub fn written(&self) -> usize {
        sys::der_written(&self.0)
    }

    /// The octets that were written.
    ///
    /// # Errors
    ///
    /// `Failed` if the writer has failed; `Unbalanced` if an element is open, because a closure of
    /// [`inside`](Self::inside) panicked.
    pub fn finish(self) -> Result<&'a [u8], Error> {
        answer(sys::der_writer_finish(&self.0))?;
        // SAFETY: proved: that number of octets of the slice is written, and it is borrowed for 'a.
        Ok(unsafe { core::slice::from_raw_parts(self.0.octets, self.0.position) })
    }
}

impl fmt::Debug for Writer<'_> {
    fn fmt(&self, f: &mut fmt::Formatter<'_>) -> fmt::Result {
        f.debug_struct("Writer")
            .field("written", &self.written())
            .field("failed", &self.0.failed)
            .finish()
    }
}

/// How many octets an element with this tag and number of octets of contents has.
///
/// # Errors
///
/// `TagNumberInvalid` if `tag` is not a tag; `Overflow` if there are more than 4294967295.
pub fn element_length(tag: Tag, length: u32) -> Result<u32, Error> {
    let mut count = 0;
    answer(sys::der_element_length(tag.0, length, &mut count))?;
    Ok(count)
}

/// Sorts encodings into the order of a SET OF (X.690 11.6), that of their octets.
pub fn sort_set(elements: &mut [&[u8]]) {
    elements.sort_unstable();
}
