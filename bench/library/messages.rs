//! Signed messages under BER, decoded, with the segments of their content.
use crate::Totals;
use cms::SignedMessage;
use der::DecodeBytes;
use std::alloc::Global;

/// Decodes the signed message in `bytes` under the Basic Encoding Rules, and then iterates over the
/// segments of its content. In the result, `elements` is the number of segments, `contents` is the
/// total number of their octets, and `octet_sum` is the sum of the first octet of each. All are 0 if
/// there is an error, or no content.
#[unsafe(no_mangle)]
pub extern "C" fn der_bench_message(alloc: Global, bytes: &[u8]) -> Totals {
    let mut totals = Totals::none();
    let Ok(message) = SignedMessage::from_ber(alloc, bytes) else {
        return totals;
    };
    let Some(content) = message.content.0.encap_content_info.e_content.0 else {
        return totals;
    };
    let mut segments = content.0.segments();
    while let Some(piece) = segments.next() {
        totals.pass(piece.len(), piece.first().copied().unwrap_or(0) as u64);
    }
    totals
}
