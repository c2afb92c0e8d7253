//! Tables of types of the user's modules.
use crate::checks::holds;
use schema_types::Schema;
use schema_read::read;
use der_show_lib::{NoTable, table_of_modules};
use std::alloc::Global;

const MODULE: &str = "Visits DEFINITIONS ::= BEGIN
Visit ::= SEQUENCE { ticket INTEGER, member BOOLEAN OPTIONAL }
END
Rooms DEFINITIONS ::= BEGIN
IMPORTS Visit FROM Visits;
Room ::= SET OF Visit
Wrong ::= SEQUENCE { door Nowhere }
END
";

// How many departures the octets have, read as a value of this type of the modules.
fn departures(alloc: Global, name: &str, octets: &[u8]) -> Option<usize> {
    let table = table_of_modules(alloc, "rooms.asn1", MODULE, name).ok()?;
    let schema = Schema::new(table.as_slice()).ok()?;
    let tree = read(alloc, &schema, schema.find_node(name)?, octets).ok()?;
    Some(tree.departures.len())
}

#[test]
fn values_are_read_by_the_types_of_a_module(rt: HostRuntime) {
    let room = [0x31, 10, 0x30, 3, 2, 1, 5, 0x30, 3, 2, 1, 7];
    holds(&rt, departures(rt.alloc(), "Room", &room) == Some(0));
    // X.690 11.1: the octet of TRUE is FF
    let visit = [0x30, 6, 2, 1, 5, 1, 1, 1];
    holds(&rt, departures(rt.alloc(), "Visit", &visit) == Some(1));
}

#[test]
fn a_name_that_no_module_has_is_refused_at_its_place(rt: HostRuntime) {
    match table_of_modules(rt.alloc(), "rooms.asn1", MODULE, "Wrong") {
        Err(NoTable::Line(line)) => holds(&rt, line.as_str().starts_with("rooms.asn1:7:27: found Nowhere, ")),
        _ => holds(&rt, false),
    }
}
