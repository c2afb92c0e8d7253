//! Parcels that are read, and written as they were.
use super::octets::{FULL, PLAN, SEAL, SMALL, WITH_MORE};
use crate::checks::{holds, same, same_octets};
use der::{DecodeBytes, Encode};
use der_asn1::ObjectIdentifierRef;
use example_parcels::asn1::values::{MAX_WEIGHT, id_fragile, id_insured, name_of};
use example_parcels::{HandlingBit, Packing, Parcel, Plan, Seal, Stop, Text, Time, Version};
use std::alloc::Global;

// Whether octets are read as a parcel, and written as they were.
fn is_same(alloc: Global, octets: &[u8]) -> bool {
    let Ok(parcel) = Parcel::from_der(alloc, octets) else {
        return false;
    };
    let Ok(written) = parcel.to_der(alloc) else {
        return false;
    };
    written.as_slice() == octets
}

#[test]
fn parcels_are_written_as_they_were(rt: HostRuntime) {
    holds(&rt, is_same(rt.alloc(), &SMALL));
    holds(&rt, is_same(rt.alloc(), &FULL));
}

#[test]
fn an_element_behind_an_extension_mark_is_kept(rt: HostRuntime) {
    holds(&rt, is_same(rt.alloc(), &WITH_MORE));
}

#[test]
fn absent_fields_have_their_defaults(rt: HostRuntime) {
    let Ok(parcel) = Parcel::from_der(rt.alloc(), &SMALL) else {
        holds(&rt, false);
        return;
    };
    same(&rt, parcel.version.0.0.value.item(), Version::V1);
    same_octets(&rt, parcel.number.octets(), &[7]);
    same(&rt, parcel.weight.get(), 250);
    same(&rt, parcel.packing.0.value.item(), Packing::Box);
    holds(&rt, parcel.handling.0.is_none());
    holds(&rt, !parcel.opened.0.is_true());
    same(&rt, parcel.journey.sender.0.name.as_str(), "Ann");
    holds(&rt, parcel.journey.receiver.0.is_none());
    same_octets(&rt, parcel.journey.stops.octets(), &[]);
    holds(&rt, parcel.journey.properties.0.is_none());
    holds(&rt, parcel.label.0.is_none());
    same(&rt, parcel.journey.attempts.0.0.value.number, 0);
}

#[test]
fn fields_that_are_present_are_read(rt: HostRuntime) {
    let Ok(parcel) = Parcel::from_der(rt.alloc(), &FULL) else {
        holds(&rt, false);
        return;
    };
    same(&rt, parcel.version.0.0.value.item(), Version::V2);
    same_octets(&rt, parcel.number.octets(), &[1, 0, 0, 0, 0, 0, 0, 0, 0]);
    same(&rt, parcel.weight.get(), 30000);
    same(&rt, parcel.packing.0.value.item(), Packing::Tube);
    let Some(handling) = parcel.handling.0 else {
        holds(&rt, false);
        return;
    };
    holds(&rt, handling.has_bit(HandlingBit::Fragile as u32));
    holds(&rt, !handling.has_bit(HandlingBit::ThisSideUp as u32));
    holds(&rt, handling.has_bit(HandlingBit::KeepDry as u32));
    holds(&rt, parcel.opened.0.is_true());
    same(&rt, parcel.journey.attempts.0.0.value.number, 3);
}

#[test]
fn an_address_is_read(rt: HostRuntime) {
    let Ok(parcel) = Parcel::from_der(rt.alloc(), &FULL) else {
        holds(&rt, false);
        return;
    };
    let Some(address) = parcel.journey.receiver.0 else {
        holds(&rt, false);
        return;
    };
    same(&rt, address.0.name.as_str(), "Zoë");
    same_octets(&rt, address.0.street.octets(), b"Quay 2");
    match (address.0.code.0, address.0.type_.0, address.0.note.0) {
        (Some(code), Some(kind), Some(note)) => {
            same_octets(&rt, code.0.0.octets(), b"12345");
            same_octets(&rt, kind.octets(), b"home");
            same_octets(&rt, note.octets(), &[0, 0x48, 0, 0x69]);
        }
        _ => holds(&rt, false),
    }
}

// The octets of a stop's place, and the number of the form of its time.
fn stop<'a>(stop: &Stop<'a>) -> (&'a [u8], u32) {
    let place = match stop.place {
        Text::Printable(text) => text.octets(),
        Text::Utf8(text) => text.octets(),
        Text::Teletex(text) => text.octets(),
        Text::Visible(text) => text.octets(),
    };
    let time = match stop.time {
        Time::Utc(_) => 0,
        Time::General(_) => 1,
        Time::Unknown(_) => 2,
    };
    (place, time)
}

#[test]
fn stops_are_read_in_their_order(rt: HostRuntime) {
    let Ok(parcel) = Parcel::from_der(rt.alloc(), &FULL) else {
        holds(&rt, false);
        return;
    };
    let expected = [("Rome", 0), ("Köln", 1), ("Oslo", 2)];
    let mut count = 0;
    for found in parcel.journey.stops.iter(rt.alloc()) {
        let (place, time) = stop(&found);
        holds(&rt, count < 3);
        same_octets(&rt, place, expected[count].0.as_bytes());
        same(&rt, time, expected[count].1);
        count += 1;
    }
    same(&rt, count, 3);
}

#[test]
fn properties_are_read_in_ascending_order(rt: HostRuntime) {
    let Ok(parcel) = Parcel::from_der(rt.alloc(), &FULL) else {
        holds(&rt, false);
        return;
    };
    let Some(properties) = parcel.journey.properties.0 else {
        holds(&rt, false);
        return;
    };
    let mut lengths = [0; 2];
    let mut count = 0;
    for property in properties.0.iter(rt.alloc()) {
        if count < 2 {
            lengths[count] = property.kind.octets().len();
        }
        count += 1;
    }
    same(&rt, count, 2);
    same(&rt, lengths, [4, 5]);
}

#[test]
fn a_seal_has_a_tag_around_a_choice(rt: HostRuntime) {
    let Ok(seal) = Seal::from_der(rt.alloc(), &SEAL) else {
        holds(&rt, false);
        return;
    };
    same_octets(&rt, seal.algorithm.oid.octets(), &[0x2A, 0x87, 0x67, 2]);
    match seal.text.0.value {
        Text::Utf8(text) => same(&rt, text.as_str(), "ok"),
        _ => holds(&rt, false),
    }
    match seal.extra.0 {
        Some(extra) => same_octets(&rt, extra.contents, &[0x78]),
        None => holds(&rt, false),
    }
}

#[test]
fn a_plan_is_a_list_of_lists(rt: HostRuntime) {
    let Ok(plan) = Plan::from_der(rt.alloc(), &PLAN) else {
        holds(&rt, false);
        return;
    };
    let mut counts = [0; 2];
    let mut count = 0;
    for delivery in plan.iter(rt.alloc()) {
        for _ in delivery.items.iter(rt.alloc()) {
            if count < 2 {
                counts[count] += 1;
            }
        }
        count += 1;
    }
    same(&rt, count, 2);
    same(&rt, counts, [1, 2]);
    match plan.to_der(rt.alloc()) {
        Ok(written) => same_octets(&rt, written.as_slice(), &PLAN),
        Err(_) => holds(&rt, false),
    }
}

#[test]
fn an_address_in_an_octet_string_is_read(rt: HostRuntime) {
    let Ok(parcel) = Parcel::from_der(rt.alloc(), &FULL) else {
        holds(&rt, false);
        return;
    };
    match parcel.label.0 {
        Some(label) => {
            same(&rt, label.0.address.0.name.as_str(), "Ann");
            same_octets(&rt, label.0.octets.octets(), &[1, 2, 3, 4, 5, 6, 7, 8]);
            holds(&rt, label.0.seal.0.is_some());
        }
        None => holds(&rt, false),
    }
}

#[test]
fn identifiers_have_the_octets_of_their_arcs(rt: HostRuntime) {
    let fragile = id_fragile();
    same_octets(&rt, fragile.octets(), &[0x2A, 0x87, 0x67, 1, 2]);
    same(&rt, name_of(&fragile), Some("id-fragile"));
    same(&rt, name_of(&id_insured()), Some("id-insured"));
    match ObjectIdentifierRef::new(&[0x2A, 0x87, 0x67, 9]) {
        Some(other) => same(&rt, name_of(&other), None),
        None => holds(&rt, false),
    }
    same(&rt, MAX_WEIGHT, 30000);
}
