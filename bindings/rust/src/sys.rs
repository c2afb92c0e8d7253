//! The structs and functions of `der.h`.
//!
//! References in a call are never null, point to different structs and hold values that Rust made,
//! so functions whose other parameters are numbers are safe. Functions with a pointer and a length
//! are unsafe: the caller ensures that they describe a slice.
#[allow(dead_code, reason = "all calls of der.h are declared, of which this crate makes some")]
#[rustfmt::skip]
mod calls;
mod structs;
mod trees;

pub use calls::*;
pub use structs::*;
pub use trees::*;

/// The number of the kind for what is no date or time.
pub const DATE_TIME: u8 = 1;

/// The number of the kind for an element of another reader.
pub const READER: u8 = 14;

/// The number of the kind for what may occur once and occurs again.
pub const DUPLICATE: u8 = 10;

/// The number of the kind for elements of a SET OF that are not in order.
pub const SET_ORDERING: u8 = 11;

/// The number of the kind for too little space.
pub const OVERLENGTH: u8 = 13;

/// The number of the kind that has two tags.
pub const TAG_UNEXPECTED: u8 = 17;

impl<'a> RawSpan<'a> {
    /// The octets, which live as long as the input.
    #[inline]
    pub fn octets(&self) -> &'a [u8] {
        // SAFETY: proved: a span that a call has set lies in the input, which lives for 'a.
        unsafe { core::slice::from_raw_parts(self.octets, self.length) }
    }
}

impl<'a> RawBits<'a> {
    /// The octets that hold the bits, which live as long as the input.
    #[inline]
    pub fn octets(&self) -> &'a [u8] {
        // SAFETY: proved: bits that a call has set lie in the input, which lives for 'a.
        unsafe { core::slice::from_raw_parts(self.octets, self.length) }
    }
}
