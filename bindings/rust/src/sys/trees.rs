//! The struct of `der_tree.h` that another library has.

#[repr(C)]
#[derive(Clone, Copy, PartialEq, Eq, Debug)]
pub struct RawEntry {
    pub offset: usize,
    pub contents_length: usize,
    pub parent: usize,
    pub node: u32,
    pub field: u32,
    pub alternative: u32,
    pub header_length: u8,
    pub depth: u8,
}

const _: () = {
    use core::mem::{offset_of, size_of};
    assert!(size_of::<RawEntry>() == 40 && offset_of!(RawEntry, depth) == 37);
};
