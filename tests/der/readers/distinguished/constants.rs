//! Whether a reader returns slices, by its constant and by its function.
use super::*;
use crate::checks::holds;
use crate::fixtures::constants::reading_slices_agrees;

#[test]
fn constant_and_function_agree_whether_a_reader_reads_slices(rt: HostRuntime) {
    holds(&rt, reading_slices_agrees::<SliceReader>(true));
    holds(&rt, reading_slices_agrees::<CopyingReader>(false));
}
