//! Files of no known kind are shown as elements.
use super::octets::{KERBEROS, LDAP, PARAMETERS, SIGNATURE, SNMP};
use super::printed::{has, is_shown};
use crate::checks::same_octets;
use std::alloc::Global;
use std::process::Abort;

// Aborts the test unless the octets are shown as elements, with status 0.
fn is_unknown(rt: &impl Abort, alloc: Global, octets: &[u8]) -> Vec<u8> {
    let printed = is_shown(rt, alloc, octets, 0);
    let heading = b"Elements of no known kind:\nd=0  hl=2 l=";
    same_octets(rt, printed.get(..heading.len()).unwrap_or(&[]), heading);
    printed
}

#[test]
fn values_of_other_types_are_elements(rt: HostRuntime) {
    let alloc = rt.alloc();
    is_unknown(&rt, alloc, &SIGNATURE);
    is_unknown(&rt, alloc, &LDAP);
    let snmp = is_unknown(&rt, alloc, &SNMP);
    has(&rt, &snmp, "OCTET STRING :7075626C6963\n");
    let kerberos = is_unknown(&rt, alloc, &KERBEROS);
    has(&rt, &kerberos, "GeneralizedTime :20240101000000Z\n");
    has(&rt, &kerberos, "GeneralString :EXAMPLE\n");
}

#[test]
fn parameters_are_no_key(rt: HostRuntime) {
    let printed = is_shown(&rt, rt.alloc(), &PARAMETERS, 0);
    has(&rt, &printed, "DH Parameters: (512 bit)\nP: 00:d7:2c:26:");
    has(&rt, &printed, "G: 2 (0x2)\n");
}

#[test]
fn contents_of_elements_are_judged(rt: HostRuntime) {
    // an INTEGER in more octets than needed, a BOOLEAN that is no FF, a UTCTime that is none, and a text in [2]
    let octets = [
        0x30, 0x14, 0x02, 0x02, 0x00, 0x05, 0x01, 0x01, 0x05, 0x17, 0x03, 0x61, 0x62, 0x63, 0x82,
        0x06, 0x61, 0x20, 0x74, 0x65, 0x78, 0x74,
    ];
    let printed = is_shown(&rt, rt.alloc(), &octets, 1);
    has(&rt, &printed, "CONTEXT-SPECIFIC [2] (primitive) :a text\n");
    has(&rt, &printed, "at offset 2: X.690 8.3.2: ");
    has(&rt, &printed, "at offset 6: X.690 11.1: ");
    has(&rt, &printed, "at offset 9: X.680 47: ");
    has(&rt, &printed, "3 departures from DER, 2 of them from BER too\n");
}

#[test]
fn the_walk_goes_on_after_a_fault(rt: HostRuntime) {
    // the second element in the first SEQUENCE is longer than that
    let octets = [
        0x30, 0x0A, 0x30, 0x05, 0x02, 0x01, 0x01, 0x04, 0x09, 0x02, 0x01, 0x02,
    ];
    let printed = is_shown(&rt, rt.alloc(), &octets, 1);
    has(&rt, &printed, "d=1  hl=2 l=   1 prim:  INTEGER :02\n");
    has(&rt, &printed, "at offset 7: X.690 8.1.4: contents cut off; found 04:09:02:01:02\n");
}
