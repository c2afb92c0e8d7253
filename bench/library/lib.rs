//! The functions whose speed `bench/` measures: walks over elements, decoding of keys,
//! certificates, revocation lists, byte strings and texts, comparison of elements, reading of
//! messages with indefinite lengths, and writing. Also the functions with which `tools/real_files`
//! reads files and writes them back.
#![tactic(auto)]

mod again;
mod certificates;
mod decode;
mod extensions;
mod files;
mod handwritten;
mod headers;
mod keys;
mod messages;
mod nested;
mod orders;
mod public_keys;
mod revocation_lists;
mod scan;
mod sets;
mod strings;
mod tags;
mod writing;

use der::{EncodingRules, Error, Reader, ReaderExt, SliceReader, decode_header};

/// What a benchmark function read or wrote, in numbers. The comments here describe what most
/// functions put into the fields. The comment of a function says what that function puts into them.
#[repr(C)]
pub struct Totals {
    /// The number of elements that were read or written.
    pub elements: u64,
    /// The total number of contents octets of the elements counted in `elements`, without their
    /// headers.
    pub contents: u64,
    /// The sum of the first contents octets of the elements counted in `elements`. An element
    /// without contents adds 0.
    pub octet_sum: u64,
}

impl Totals {
    fn none() -> Totals {
        Totals {
            elements: 0,
            contents: 0,
            octet_sum: 0,
        }
    }

    // Counts an element with `contents` octets of contents.
    #[inline(always)]
    fn pass(&mut self, contents: usize, first: u64) {
        self.elements = self.elements.wrapping_add(1);
        self.contents = self.contents.wrapping_add(contents as u64);
        self.octet_sum = self.octet_sum.wrapping_add(first);
    }

    // Sets the octets of contents to those that were written.
    #[inline(always)]
    fn written(mut self, answer: Result<&[u8], Error>) -> Totals {
        if let Ok(octets) = answer {
            self.contents = octets.len() as u64;
        }
        self
    }
}

/// Reads the elements in `bytes` one after the other, without entering their contents, until the
/// octets end or there is an error. In the result, `elements` is the number of elements, `contents`
/// is the total number of their contents octets, and `octet_sum` is the sum of their first contents
/// octets.
#[unsafe(no_mangle)]
pub extern "C" fn der_bench_walk(bytes: &[u8]) -> Totals {
    walk(bytes, EncodingRules::Der)
}

// The same under any rules.
#[inline(always)]
fn walk(bytes: &[u8], rules: EncodingRules) -> Totals {
    let mut totals = Totals::none();
    let Ok(mut reader) = SliceReader::new_with_encoding_rules(bytes, rules) else {
        return totals;
    };
    // Each element has at least one octet.
    for _ in 0..bytes.len() {
        if reader.is_finished() {
            break;
        }
        let Ok(header) = decode_header(&mut reader) else {
            return totals;
        };
        let Ok(contents) = reader.read_slice(header.length()) else {
            return totals;
        };
        let first = contents.first().copied().unwrap_or(0);
        totals.pass(contents.len(), first as u64);
    }
    totals
}
