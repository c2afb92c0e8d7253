//! What tags select, and tables whose tags are not distinct.
use super::choices::CHOICES;
use super::faults::faulty;
use crate::checks::{holds, same, same_at, same_octets};
use schema_types::{FaultKind, LimitKind, Schema, Selected};
use der_base::Class;

#[test]
fn selected(rt: HostRuntime) {
    let Ok(schema) = Schema::new(&CHOICES) else {
        holds(&rt, false);
        return;
    };
    if schema.counts().nodes < 10 {
        holds(&rt, false);
        return;
    }
    let selected = |node, field| Some(Selected { node, field });
    let flag = schema.select(1, Class::ContextSpecific, 0);
    same(&rt, flag, selected(3, Some(0)));
    let count = schema.select(1, Class::Universal, 2);
    same(&rt, count, selected(4, Some(1)));
    let octets = schema.select(1, Class::Universal, 4);
    same(&rt, octets, selected(5, Some(3)));
    same(&rt, schema.select(1, Class::Universal, 0), None);
    let last = schema.select(8, Class::Universal, 5);
    same(&rt, last, selected(8, None));
    same(&rt, schema.select(8, Class::Private, 5), None);
}

#[test]
fn insertion(rt: HostRuntime) {
    let Ok(schema) = Schema::new(&CHOICES) else {
        holds(&rt, false);
        return;
    };
    if schema.counts().nodes < 10 {
        holds(&rt, false);
        return;
    }
    same(&rt, schema.node(2).insertion(), Some(3));
    same(&rt, schema.node(9).insertion(), None);
}

#[test]
fn names_and_limits(rt: HostRuntime) {
    let Ok(schema) = Schema::new(&CHOICES) else {
        holds(&rt, false);
        return;
    };
    if schema.counts().nodes < 10 {
        holds(&rt, false);
        return;
    }
    let count = schema.node(4);
    match schema.name_of_number(count.parts, 1) {
        Some(name) => same_octets(&rt, schema.text_of(name.name).as_bytes(), b"one"),
        None => holds(&rt, false),
    }
    holds(&rt, schema.name_of_number(count.parts, 3).is_none());
    for (number, allowed) in [(-1, false), (0, true), (10, true), (11, false), (30, true)] {
        let answer = schema.is_within_limits(count.limits, LimitKind::Value, number);
        same_at(&rt, number, answer, allowed);
    }
    holds(
        &rt,
        schema.is_within_limits(count.limits, LimitKind::Size, 99),
    );
}

#[test]
fn same_tags(rt: HostRuntime) {
    // the OCTET STRING of Outer becomes an INTEGER, as an alternative of Inner is
    faulty(&rt, CHOICES, 239, 2, FaultKind::Tag, 516);
    // [1] of the second component becomes [2], as the third is
    faulty(&rt, CHOICES, 279, 2, FaultKind::Tag, 600);
    // the third component, a required extension addition, becomes NULL, as the last is
    faulty(&rt, CHOICES, 619, 8, FaultKind::Tag, 628);
    // both components of a SET are flags
    faulty(&rt, CHOICES, 703, 3, FaultKind::Tag, 684);
}

#[test]
fn choices(rt: HostRuntime) {
    // Inner has no alternative
    faulty(&rt, CHOICES, 59, 0, FaultKind::Parts, 52);
    // Outer is an alternative of itself
    faulty(&rt, CHOICES, 507, 1, FaultKind::Choice, 504);
    // the insertion point of Record is after more fields than it has
    faulty(&rt, CHOICES, 151, 5, FaultKind::Chooser, 148);
}
