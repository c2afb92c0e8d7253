//! Faults of a table in which some octets are changed.
use super::table::TABLE;
use crate::checks::{holds_at, same_at};
use schema_types::{Fault, FaultKind, Schema};
use std::process::Abort;

/// Aborts the test if a table in which one octet is changed does not have the expected fault.
pub fn faulty<const N: usize>(
    rt: &impl Abort,
    mut table: [u8; N],
    at: usize,
    octet: u8,
    kind: FaultKind,
    offset: usize,
) {
    if at >= table.len() {
        holds_at(rt, at, false);
        return;
    }
    table[at] = octet;
    match Schema::new(&table) {
        Ok(_) => holds_at(rt, at, false),
        Err(fault) => same_at(rt, at, fault, Fault { kind, offset }),
    }
}

#[test]
fn headers(rt: HostRuntime) {
    faulty(&rt, TABLE, 3, b'X', FaultKind::Magic, 0);
    faulty(&rt, TABLE, 7, 2, FaultKind::Version, 4);
    faulty(&rt, TABLE, 11, 10, FaultKind::Size, 898);
    faulty(&rt, TABLE, 8, 255, FaultKind::Size, 898);
    match Schema::new(&TABLE[..31]) {
        Ok(_) => holds_at(&rt, 31, false),
        Err(fault) => {
            let expected = Fault {
                kind: FaultKind::TooShort,
                offset: 31,
            };
            same_at(&rt, 31, fault, expected);
        }
    }
}

#[test]
fn rows(rt: HostRuntime) {
    faulty(&rt, TABLE, 32, 15, FaultKind::Kind, 32);
    faulty(&rt, TABLE, 33, 1, FaultKind::Class, 33);
    faulty(&rt, TABLE, 34, 2, FaultKind::Flag, 34);
    faulty(&rt, TABLE, 35, 2, FaultKind::Flag, 35);
    faulty(&rt, TABLE, 35, 1, FaultKind::Inner, 48);
    faulty(&rt, TABLE, 43, 131, FaultKind::Name, 40);
    faulty(&rt, TABLE, 59, 7, FaultKind::Parts, 52);
    faulty(&rt, TABLE, 67, 3, FaultKind::Limits, 60);
    faulty(&rt, TABLE, 71, 1, FaultKind::Chooser, 68);
    faulty(&rt, TABLE, 475, 3, FaultKind::Presence, 472);
    faulty(&rt, TABLE, 491, 11, FaultKind::Node, 488);
    faulty(&rt, TABLE, 643, 3, FaultKind::Limit, 640);
    faulty(&rt, TABLE, 768, 0x80, FaultKind::Name, 40);
}

#[test]
fn order(rt: HostRuntime) {
    faulty(&rt, TABLE, 894, 0x14, FaultKind::Order, 756);
    faulty(&rt, TABLE, 755, 11, FaultKind::Node, 752);
}
