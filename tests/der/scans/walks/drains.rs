//! Octets that a slice drains at once, and a reader without slices in steps.
use super::*;
use crate::checks::same_at;
use std::process::Abort;

// Both readers return the same, and are at the same position.
fn drain_both<R: Reader, S: Reader>(rt: &impl Abort, mut reader: R, mut steps: S, amount: Length) {
    same_at(rt, amount, reader.drain(amount), steps.drain(amount));
    same_at(rt, amount, place_of(&reader), place_of(&steps));
}

// Both readers drain equally after the first octets are read, and after both have failed.
fn drain_after(rt: &impl Abort, octets: &[u8], passed: u32, amount: Length) -> Result<(), Error> {
    let mut reader = ber_reader(octets)?;
    let mut steps = ber_not_borrowed(octets)?;
    let _ = reader.read_slice(Length::new(passed))?;
    steps.drain(Length::new(passed))?;
    drain_both(rt, reader.fork(), steps.fork(), amount);
    let _ = reader.error(ErrorKind::DateTime);
    let _ = steps.error(ErrorKind::DateTime);
    drain_both(rt, reader, steps, amount);
    Ok(())
}

// Up to forty octets, with definite and indefinite lengths.
fn drain_each(rt: &impl Abort, octets: &[u8], passed: u32) -> Result<(), Error> {
    for amount in 0..=40u32 {
        drain_after(rt, octets, passed, Length::new(amount))?;
        drain_after(rt, octets, passed, Length::new_indefinite(amount))?;
    }
    Ok(())
}

#[test]
fn both_readers_drain_up_to_forty_octets_alike(rt: HostRuntime) -> Result<(), Fail> {
    let octets = [0x2A; 41];
    for count in 0..=40usize {
        drain_each(&rt, first_octets(&octets, count), 0)?;
        drain_each(&rt, first_octets(&octets, count + 1), 1)?;
    }
    Ok(())
}
