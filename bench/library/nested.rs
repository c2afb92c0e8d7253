//! Walks over elements, and over the elements inside them.
ghost use Rattle.std.specs.Prelude.{◌≡◌, length};
ghost use Rattle.der.specs.Prelude.{Same, slice_state};

use crate::Totals;
use der::{
    Error, Header, Length, Reader, ReaderExt, Resumption, SliceReader, decode_header, read_value,
};

// How many levels of nested parts are entered.
const LEVELS: u8 = 64;

/// Reads the elements in `bytes`, and the elements inside constructed ones, until the octets end or
/// there is an error. Enters constructed contents with the function `read_nested`. A constructed
/// element inside 64 others is read like a primitive one. In the result, `elements` is the number
/// of all elements, constructed ones included. `contents` and `octet_sum` cover only the primitive
/// elements: the total number of their contents octets, and the sum of their first contents octets.
#[unsafe(no_mangle)]
pub extern "C" fn der_bench_nested(bytes: &[u8]) -> Totals {
    let mut totals = Totals::none();
    if let Ok(mut reader) = SliceReader::new(bytes) {
        let _ = walk_nested(&mut reader, LEVELS, &mut totals);
    }
    totals
}

/// Reads the elements in `bytes`, and the elements inside constructed ones, until the octets end or
/// there is an error. Enters constructed contents with the function `read_value`. A constructed
/// element inside 64 others is read like a primitive one. In the result, `elements` is the number
/// of all elements, constructed ones included. `contents` and `octet_sum` cover only the primitive
/// elements: the total number of their contents octets, and the sum of their first contents octets.
#[unsafe(no_mangle)]
pub extern "C" fn der_bench_values(bytes: &[u8]) -> Totals {
    let mut totals = Totals::none();
    if let Ok(mut reader) = SliceReader::new(bytes) {
        let _ = walk_values(&mut reader, LEVELS, &mut totals);
    }
    totals
}

// Walks up to the end of the part that the reader is in.
fn walk_nested(reader: &mut SliceReader<'_>, levels: u8, totals: &mut Totals) -> Result<(), Error>
    ensures { Same (slice_state reader.old) (slice_state reader.new) }
{
    // Each element has at least one octet.
    for _ in 0..u32::from(reader.remaining_len()) {
        if reader.is_finished() {
            break;
        }
        let header = decode_header(reader)?;
        if header.is_constructed() && levels > 0 {
            totals.pass(0, 0);
            let below = levels - 1;
            reader.read_nested(
                header.length(),
                |inner: &mut SliceReader<'_>| -> Result<(), Error>
                    ensures { Same (slice_state inner.old) (slice_state inner.new) }
                { walk_nested(inner, below, totals) },
            )?;
        } else {
            let contents = reader.read_slice(header.length())?;
            totals.pass(
                contents.len(),
                contents.first().copied().unwrap_or(0) as u64,
            );
        }
    }
    Ok(())
}

// The same with `read_value`.
fn walk_values(reader: &mut SliceReader<'_>, levels: u8, totals: &mut Totals) -> Result<(), Error>
    ensures { Same (slice_state reader.old) (slice_state reader.new) }
{
    // Each element has at least one octet.
    for _ in 0..u32::from(reader.remaining_len()) {
        if reader.is_finished() {
            break;
        }
        let header = decode_header(reader)?;
        if header.is_constructed() && levels > 0 {
            totals.pass(0, 0);
            let below = levels - 1;
            read_value(
                reader,
                header,
                |inner: &mut SliceReader<'_>, _header: Header| -> Result<(), Error>
                    ensures { Same (slice_state inner.old) (slice_state inner.new) }
                { walk_values(inner, below, totals) },
            )?;
        } else {
            let contents = reader.read_slice(header.length())?;
            totals.pass(
                contents.len(),
                contents.first().copied().unwrap_or(0) as u64,
            );
        }
    }
    Ok(())
}

/// Reads the elements in `bytes`, and the elements inside constructed ones, until the octets end or
/// there is an error. A loop enters constructed contents with `enter_nested` and leaves them with
/// `leave_nested`, without closures or recursion. A constructed element inside 64 others is read
/// like a primitive one. In the result, `elements` is the number of all elements, constructed ones
/// included. `contents` and `octet_sum` cover only the primitive elements: the total number of
/// their contents octets, and the sum of their first contents octets.
#[unsafe(no_mangle)]
pub extern "C" fn der_bench_halves(bytes: &[u8]) -> Totals {
    let mut totals = Totals::none();
    if let Ok(mut reader) = SliceReader::new(bytes) {
        let _ = walk_halves(&mut reader, bytes.len(), &mut totals);
    }
    totals
}

// The same over a reader whose input has `len` octets.
#[inline(always)]
fn walk_halves(reader: &mut SliceReader<'_>, len: usize, totals: &mut Totals) -> Result<(), Error>
    requires { length (slice_state reader.old).input ≡ len }
{
    let mut ends = [0u32; 64];
    let mut level = 0usize;
    // Each element has at least one octet, and each part is left once.
    for _ in 0..len.saturating_mul(2) {
        if reader.is_finished() {
            if level == 0 {
                break;
            }
            level -= 1;
            let end = ends[level];
            // The precondition of `leave_nested` is checked here instead of proved.
            if end as usize > len || u32::from(reader.position()) > end {
                break;
            }
            reader.leave_nested(Resumption::new(Length::new(end), level as u8));
        } else {
            let header = decode_header(reader)?;
            if header.is_constructed() && level < 64 {
                totals.pass(0, 0);
                let outer = reader.enter_nested(header.length())?;
                ends[level] = u32::from(outer.input_len());
                level += 1;
            } else {
                let contents = reader.read_slice(header.length())?;
                totals.pass(
                    contents.len(),
                    contents.first().copied().unwrap_or(0) as u64,
                );
            }
        }
    }
    Ok(())
}
