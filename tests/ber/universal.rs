//! The universal types of X.680, table 1.
use crate::checks::{holds, same};
use ber::{Form, Universal};
use std::process::Abort;

fn is_named(rt: &impl Abort, number: u32, name: &str, form: Form) {
    match Universal::from_number(number) {
        Some(universal) => {
            same(rt, universal.name(), name);
            same(rt, universal.number(), number);
            same(rt, universal.form(), form);
        }
        None => holds(rt, false),
    }
}

#[test]
fn names(rt: HostRuntime) {
    is_named(&rt, 1, "BOOLEAN", Form::Primitive);
    is_named(&rt, 3, "BIT STRING", Form::Either);
    is_named(&rt, 8, "EXTERNAL", Form::Constructed);
    is_named(&rt, 13, "RELATIVE-OID", Form::Primitive);
    is_named(&rt, 16, "SEQUENCE", Form::Constructed);
    is_named(&rt, 23, "UTCTime", Form::Either);
    is_named(&rt, 29, "CHARACTER STRING", Form::Constructed);
    is_named(&rt, 30, "BMPString", Form::Either);
    is_named(&rt, 36, "RELATIVE-OID-IRI", Form::Primitive);
}

#[test]
fn reserved(rt: HostRuntime) {
    for number in [0, 15, 37, u32::MAX] {
        same(&rt, Universal::from_number(number), None);
    }
}
