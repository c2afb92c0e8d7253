//! Calls that write from the end of a buffer. Each line has the index at which what is written
//! starts, and the octets of the buffer after the call.
use crate::print::print_value;
use der::example::MyByteMonth;
use der::{Encode, EncodeValue, Error, ErrorKind, Header, Length, Tag, octets_len, place_before};
use std::alloc::Global;
use std::io;

fn month(number: u8) -> Result<MyByteMonth, Error> {
    match MyByteMonth::new(number) {
        Some(month) => Ok(month),
        None => Err(ErrorKind::DateTime.to_error()),
    }
}

pub fn lengths(rt: &impl Print) -> io::Result<()> {
    let (Ok(first), Ok(second)) = (month(9), month(10)) else {
        return Ok(());
    };
    print_value(rt, "len_before", first.len_before())?;
    print_value(rt, "len_before of a pair", (first, second).len_before())?;
    print_value(rt, "value_len_before", first.value_len_before())?;
    print_value(rt, "octets_len", octets_len(&[1, 2, 3]))
}

pub fn elements(rt: &impl Print) -> io::Result<()> {
    let (Ok(first), Ok(second)) = (month(9), month(10)) else {
        return Ok(());
    };
    let header = Header::new(Tag::Sequence, Length::new(256));
    let (mut one, mut two, mut three) = ([0; 6], [0; 5], [0; 7]);
    let start = header.encode_before(&mut one, 5);
    print_placed(rt, "encode_before of a header", start, &one)?;
    let start = first.encode_before(&mut two, 4);
    print_placed(rt, "encode_before", start, &two)?;
    let start = (first, second).encode_before(&mut three, 6);
    print_placed(rt, "encode_before of a pair", start, &three)
}

pub fn contents(rt: &impl Print) -> io::Result<()> {
    let Ok(month) = month(9) else {
        return Ok(());
    };
    let (mut one, mut two) = ([0; 3], [0; 4]);
    let start = month.encode_value_before(&mut one, 2);
    print_placed(rt, "encode_value_before", start, &one)?;
    let start = place_before(&[1, 2], &mut two, 3);
    print_placed(rt, "place_before", start, &two)
}

pub fn boxed(rt: &impl Print, alloc: Global) -> io::Result<()> {
    let Ok(month) = month(9) else {
        return Ok(());
    };
    let Ok(boxed) = Box::new(alloc, month) else {
        return Ok(());
    };
    println!(rt; "prepared")?;
    print_value(rt, "len_before of a box", boxed.len_before())?;
    let mut buffer = [0; 4];
    let start = boxed.encode_before(&mut buffer, 4);
    print_placed(rt, "encode_before of a box", start, &buffer)
}

// Prints the index at which a call wrote, and the buffer that it wrote into.
fn print_placed(rt: &impl Print, call: &str, start: u32, buffer: &[u8]) -> io::Result<()> {
    println!(rt; "{call}: {start} {buffer:?}")
}
