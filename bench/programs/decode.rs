//! Decodes keys with the proved reader and by hand, and prints the time for one key each.
mod common;
mod keys;
mod rounds;

use keys::{decode_by_hand, keys, proved_decode};
use rounds::{By, Row, SIZES, print_row, way};

fn main() {
    for size in SIZES {
        for bound in [33, 513] {
            let (bytes, count) = keys(bound, size);
            let row = Row {
                name: format!("keys of 0 to {} octets, decoded", bound - 1),
                size,
                octets: bytes.len(),
                count,
            };
            let ways = [
                way(By::Library, |()| proved_decode(&bytes)),
                way(By::Hand, |()| decode_by_hand(&bytes)),
            ];
            print_row(&row, &ways, &mut ());
        }
    }
}
