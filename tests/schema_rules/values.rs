//! Values that constraints are about.
use super::rows::NUMBERS;
use crate::checks::{holds, holds_at, same};
use schema_rules::{are_characters_in, is_in_range, size_of};
use ber::Universal;

#[test]
fn numbers_between_bounds(rt: HostRuntime) {
    let bounds = [i64::MIN, -129, -128, -1, 0, 127, 128, i64::MAX];
    for row in 0..NUMBERS.len() {
        let (contents, number) = NUMBERS[row];
        for low in bounds {
            for high in bounds {
                let above = low == i64::MIN || low as i128 <= number;
                let below = high == i64::MAX || number <= high as i128;
                holds_at(
                    &rt,
                    row,
                    is_in_range(contents, low, high) == (above && below),
                );
            }
        }
    }
}

#[test]
fn sizes(rt: HostRuntime) {
    same(&rt, size_of(Universal::OctetString, &[1, 2, 3]), 3);
    same(&rt, size_of(Universal::BitString, &[0x04, 0x0A, 0x3B]), 12);
    same(&rt, size_of(Universal::BitString, &[0]), 0);
    same(&rt, size_of(Universal::BitString, &[]), 0);
    same(&rt, size_of(Universal::BitString, &[9, 0]), 0);
    same(&rt, size_of(Universal::PrintableString, b"abc"), 3);
    same(&rt, size_of(Universal::Utf8String, "grün".as_bytes()), 4);
    same(&rt, size_of(Universal::Utf8String, &[0xFF, 0xFF]), 2);
}

#[test]
fn alphabets(rt: HostRuntime) {
    let ranges = [(0x61, 0x7A), (0xFC, 0xFC), (0x20AC, 0x20AC)];
    holds(
        &rt,
        are_characters_in(Universal::Utf8String, "grün€".as_bytes(), &ranges),
    );
    holds(
        &rt,
        !are_characters_in(Universal::Utf8String, "grÜn".as_bytes(), &ranges),
    );
    holds(&rt, are_characters_in(Universal::Ia5String, b"az", &ranges));
    holds(
        &rt,
        !are_characters_in(Universal::Ia5String, b"a{", &ranges),
    );
    holds(
        &rt,
        are_characters_in(Universal::BmpString, &[0x20, 0xAC, 0, 0xFC], &ranges),
    );
    holds(
        &rt,
        !are_characters_in(Universal::BmpString, &[0x20, 0xAD], &ranges),
    );
    holds(
        &rt,
        are_characters_in(Universal::UniversalString, &[0, 0, 0x20, 0xAC], &ranges),
    );
    holds(
        &rt,
        !are_characters_in(Universal::UniversalString, &[0, 1, 0x20, 0xAC], &ranges),
    );
    holds(&rt, are_characters_in(Universal::PrintableString, b"", &[]));
    holds(
        &rt,
        !are_characters_in(Universal::PrintableString, b" ", &[]),
    );
}
