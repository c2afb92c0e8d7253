//! What a table has.
use super::table::TABLE;
use crate::checks::{holds, same, same_octets};
use schema_types::{Counts, LimitKind, NodeKind, Presence, Schema};
use ber::Universal;
use der_base::Class;

#[test]
fn counts(rt: HostRuntime) {
    let Ok(schema) = Schema::new(&TABLE) else {
        holds(&rt, false);
        return;
    };
    let expected = Counts {
        nodes: 11,
        fields: 6,
        limits: 2,
        names: 4,
        opens: 2,
        pool: 130,
    };
    same(&rt, schema.counts(), expected);
    same(&rt, schema.counts().size(), TABLE.len());
}

#[test]
fn sequence(rt: HostRuntime) {
    let Ok(schema) = Schema::new(&TABLE) else {
        holds(&rt, false);
        return;
    };
    if schema.counts().nodes < 11 || schema.counts().fields < 6 {
        holds(&rt, false);
        return;
    }
    let extension = schema.node(4);
    same_octets(&rt, schema.text_of(extension.name).as_bytes(), b"Extension");
    same(&rt, extension.kind, NodeKind::Universal(Universal::Sequence));
    same(&rt, extension.class, Class::Universal);
    same(&rt, extension.number, 16);
    holds(&rt, !extension.extensible && extension.inner.is_none());
    holds(&rt, extension.parts.start == 2 && extension.parts.count == 3);
    let critical = schema.field(3);
    same_octets(&rt, schema.text_of(critical.name).as_bytes(), b"critical");
    same(&rt, critical.presence, Presence::Default);
    same(&rt, critical.node, 6);
    same_octets(&rt, schema.octets_of(critical.default), &[1, 1, 0]);
    let version = schema.node(1);
    same(&rt, version.kind, NodeKind::Explicit);
    same(&rt, version.class, Class::ContextSpecific);
    same(&rt, version.inner, Some(2));
    same(&rt, schema.node(10).insertion(), Some(1));
}

#[test]
fn limits_and_names(rt: HostRuntime) {
    let Ok(schema) = Schema::new(&TABLE) else {
        holds(&rt, false);
        return;
    };
    if schema.counts().limits < 2 || schema.counts().names < 4 {
        holds(&rt, false);
        return;
    }
    let versions = schema.limit(0);
    same(&rt, versions.kind, LimitKind::Value);
    holds(&rt, versions.low == 0 && versions.high == 2);
    let size = schema.limit(1);
    same(&rt, size.kind, LimitKind::Size);
    holds(&rt, size.low == 1 && size.high == i64::MAX);
    let v3 = schema.name(2);
    holds(&rt, v3.number == 2);
    same_octets(&rt, schema.text_of(v3.name).as_bytes(), b"v3");
}

#[test]
fn open_type(rt: HostRuntime) {
    let Ok(schema) = Schema::new(&TABLE) else {
        holds(&rt, false);
        return;
    };
    if schema.counts().nodes < 11 || schema.counts().opens < 2 {
        holds(&rt, false);
        return;
    }
    let value = schema.node(8);
    same(&rt, value.kind, NodeKind::Open);
    same(&rt, value.chooser, 2);
    holds(&rt, value.parts.start == 0 && value.parts.count == 2);
    let usage = schema.open_type(0);
    same_octets(&rt, schema.octets_of(usage.identifier), b"\x55\x1D\x0F");
    same(&rt, usage.node, 9);
}

#[test]
fn chosen(rt: HostRuntime) {
    let Ok(schema) = Schema::new(&TABLE) else {
        holds(&rt, false);
        return;
    };
    if schema.counts().nodes < 11 {
        holds(&rt, false);
        return;
    }
    let value = schema.node(8);
    if value.kind != NodeKind::Open {
        holds(&rt, false);
        return;
    }
    for (identifier, node) in [(b"\x55\x1D\x0F", 9), (b"\x55\x1D\x13", 10)] {
        match schema.find_open_type(value.parts, identifier) {
            Some(chosen) => same(&rt, chosen.node, node),
            None => holds(&rt, false),
        }
    }
    for identifier in [b"\x55\x1D\x0E", b"\x55\x1D\x10", b"\x55\x1D\x14"] {
        holds(&rt, schema.find_open_type(value.parts, identifier).is_none());
    }
}

#[test]
fn named(rt: HostRuntime) {
    let Ok(schema) = Schema::new(&TABLE) else {
        holds(&rt, false);
        return;
    };
    same(&rt, schema.find_node("Certificate"), Some(0));
    same(&rt, schema.find_node("KeyUsage"), Some(9));
    same(&rt, schema.find_node("Certificates"), None);
}
