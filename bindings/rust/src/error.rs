//! Errors of reading and writing.
use crate::sys::{self, RawError};
use crate::tag::Tag;
use core::fmt;

/// Why a read or a write failed: a kind, and mostly a position. It is `Copy`, and borrows nothing. Of the input it
/// holds at most tags and one octet.
#[derive(Clone, Copy, PartialEq, Eq, Hash)]
pub struct Error(pub(crate) RawError);

/// The kinds of error. `der.h` numbers them.
#[derive(Clone, Copy, PartialEq, Eq, Hash, Debug)]
#[non_exhaustive]
pub enum ErrorKind {
    /// A value is no date or time.
    DateTime,
    /// The call does not work under the encoding rules of the reader.
    EncodingRules,
    /// The reader or writer had failed before.
    Failed,
    /// Octets are missing. Both numbers count from where positions count: see [`Error::position`]. More octets do not
    /// help if the reader comes from `enter` or `open`, or if an element inside a certificate, a request, a key, a list
    /// or an extension passes the end of the element around it.
    Incomplete {
        /// How many octets are needed: where the element would end. If its header is cut, this is `actual` plus one.
        expected: u32,
        /// How many there are; for a reader from `enter` or `open`, where its contents end.
        actual: u32,
    },
    /// An indefinite length where none is allowed, or one that is not closed properly.
    IndefiniteLength,
    /// The length octets of an element with this tag break the encoding rules.
    Length(Tag),
    /// Elements are nested too deeply.
    NestingDepth,
    /// A value with this tag is not encoded canonically.
    Noncanonical(Tag),
    /// A text is not the dotted notation of an OBJECT IDENTIFIER.
    ObjectIdentifier,
    /// The elements of a SET OF are not in order.
    SetOrdering,
    /// An element that may occur once occurs again.
    Duplicate,
    /// A number of octets, or a value, is too large.
    Overflow,
    /// There is too little space.
    Overlength,
    /// The element does not lie in the octets of this reader.
    Reader,
    /// A tag number is malformed, or a [`Tag`] is not a tag.
    TagNumberInvalid,
    /// Another tag was expected.
    TagUnexpected {
        /// The tag that was requested; `None` if several were possible.
        expected: Option<Tag>,
        /// The tag that was found.
        actual: Tag,
    },
    /// No universal tag has this identifier octet.
    TagUnknown(u8),
    /// Octets are left at the end.
    TrailingData {
        /// How many octets are read.
        decoded: u32,
        /// How many octets are left.
        remaining: u32,
    },
    /// The contents of a value with this tag are malformed.
    Value(Tag),
    /// An element is not ended, or is ended out of order.
    Unbalanced,
    /// Another kind, by its number in `der.h`.
    Other(u8),
}

impl Error {
    /// An error of the kind with this number, without a position.
    pub(crate) fn of_kind(kind: u8) -> Self {
        Error(RawError {
            kind,
            ..Default::default()
        })
    }

    /// The error of an element of a SET OF that begins here, and is less than the one before it.
    pub(crate) fn of_order(place: usize) -> Self {
        let mut error = Self::of_kind(sys::SET_ORDERING);
        // a reader has at most 4294967295 octets
        (error.0.has_position, error.0.position) = (true, place as u32);
        error
    }

    /// The kind of error, with its tags and numbers.
    pub fn kind(&self) -> ErrorKind {
        let RawError { first, second, .. } = self.0;
        let expected = Tag(u64::from(self.0.expected) + 256 * u64::from(first));
        let actual = Tag(u64::from(self.0.actual) + 256 * u64::from(second));
        match self.0.kind {
            sys::DATE_TIME => ErrorKind::DateTime,
            2 => ErrorKind::EncodingRules,
            3 => ErrorKind::Failed,
            4 => ErrorKind::Incomplete {
                expected: first,
                actual: second,
            },
            5 => ErrorKind::IndefiniteLength,
            6 => ErrorKind::Length(actual),
            7 => ErrorKind::NestingDepth,
            8 => ErrorKind::Noncanonical(actual),
            9 => ErrorKind::ObjectIdentifier,
            10 => ErrorKind::Duplicate,
            sys::SET_ORDERING => ErrorKind::SetOrdering,
            12 => ErrorKind::Overflow,
            13 => ErrorKind::Overlength,
            14 => ErrorKind::Reader,
            16 => ErrorKind::TagNumberInvalid,
            sys::TAG_UNEXPECTED => ErrorKind::TagUnexpected {
                expected: (expected != Tag(0)).then_some(expected),
                actual,
            },
            18 => ErrorKind::TagUnknown((first % 256) as u8),
            19 => ErrorKind::TrailingData {
                decoded: first,
                remaining: second,
            },
            21 => ErrorKind::Value(actual),
            23 => ErrorKind::Unbalanced,
            other => ErrorKind::Other(other),
        }
    }

    /// The position, if it is known, in octets from the start of the input or of the output. In an error of the value of
    /// an extension it counts from the start of the value; in an error of an item, from the start of the contents of the
    /// list.
    pub fn position(&self) -> Option<u32> {
        self.0.has_position.then_some(self.0.position)
    }
}

impl fmt::Display for Error {
    fn fmt(&self, f: &mut fmt::Formatter<'_>) -> fmt::Result {
        let mut text = [0; 160];
        // SAFETY: pointer and length describe an array, and the call only writes it.
        let count = unsafe { sys::der_error_text(self.0, text.as_mut_ptr(), text.len()) };
        f.pad(core::str::from_utf8(&text[..count]).unwrap_or("error"))
    }
}

impl fmt::Debug for Error {
    fn fmt(&self, f: &mut fmt::Formatter<'_>) -> fmt::Result {
        f.debug_struct("Error")
            .field("kind", &self.kind())
            .field("position", &self.position())
            .finish()
    }
}

impl core::error::Error for Error {}

/// The result of a call of the library.
#[inline(always)]
pub(crate) fn answer(error: RawError) -> Result<(), Error> {
    if error.kind == 0 { Ok(()) } else { Err(Error(error)) }
}
