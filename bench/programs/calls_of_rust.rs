//! The work of calls.c with the Rust crate `der_c`.
use crate::common::Totals;
use crate::written::Wanted;
use crate::{LEVELS, pass};
use der_c::{Error, Node, Reader, Tag, Writer, element_length};

/// The totals that `read` counts, up to an error.
#[inline(always)]
fn reported(bytes: &[u8], read: impl Fn(&mut Reader<'_>, &mut Totals) -> Result<(), Error>) -> Totals {
    let mut totals = Totals::default();
    if let Ok(mut reader) = Reader::der(bytes) {
        let _ = read(&mut reader, &mut totals);
    }
    totals
}

#[inline(never)]
pub fn walk(bytes: &[u8]) -> Totals {
    reported(bytes, |reader, totals| {
        while !reader.is_finished() {
            pass(totals, reader.read()?.contents());
        }
        Ok(())
    })
}

fn walk_part(reader: &mut Reader<'_>, levels: usize, totals: &mut Totals) -> Result<(), Error> {
    while !reader.is_finished() {
        let element = reader.read()?;
        if element.is_constructed() && levels > 0 {
            pass(totals, &[]);
            walk_part(&mut reader.open(&element)?, levels - 1, totals)?;
        } else {
            pass(totals, element.contents());
        }
    }
    Ok(())
}

#[inline(never)]
pub fn nested(bytes: &[u8]) -> Totals {
    reported(bytes, |reader, totals| walk_part(reader, LEVELS, totals))
}

/// One call for each certificate.
#[inline(never)]
pub fn tree(bytes: &[u8]) -> Totals {
    let mut nodes = [Node::default(); 512];
    let mut totals = Totals::default();
    let _ = walk_trees(bytes, &mut nodes, &mut totals);
    totals
}

fn walk_trees(bytes: &[u8], nodes: &mut [Node], totals: &mut Totals) -> Result<(), Error> {
    let mut reader = Reader::der(bytes)?;
    while !reader.is_finished() {
        let element = reader.read()?;
        pass(totals, &[]);
        let count = reader.open(&element)?.tree(nodes)?;
        for node in &nodes[..count] {
            let end = if node.constructed {
                node.contents_start
            } else {
                node.end
            };
            pass(totals, &bytes[node.contents_start as usize..end as usize]);
        }
    }
    Ok(())
}

#[inline(never)]
pub fn keys(bytes: &[u8]) -> Totals {
    reported(bytes, |reader, totals| {
        while !reader.is_finished() {
            read_key(reader, totals)?;
        }
        Ok(())
    })
}

#[inline(always)]
fn read_key(reader: &mut Reader<'_>, totals: &mut Totals) -> Result<(), Error> {
    let mut key = reader.enter(Tag::SEQUENCE)?;
    let mut identifier = key.enter(Tag::SEQUENCE)?;
    let algorithm = identifier.expect(Tag::OCTET_STRING)?.contents();
    let month = identifier.expect(Tag::OCTET_STRING)?.contents();
    identifier.finish()?;
    let own = key.expect(Tag::OCTET_STRING)?.contents();
    key.finish()?;
    if let &[month] = month
        && month < 12
    {
        totals.elements += 1;
        totals.contents += (algorithm.len() + own.len()) as u64;
        totals.octet_sum += month as u64;
    }
    Ok(())
}

/// Writes each value with `write` and one writer, until an error. Returns the number of values and
/// of octets.
#[inline(always)]
fn put_all<I>(
    values: &[I],
    out: &mut [u8],
    write: impl Fn(&mut Writer<'_>, &I) -> Result<(), Error>,
) -> Totals {
    let mut totals = Totals::default();
    let mut writer = Writer::new(out);
    for value in values {
        if write(&mut writer, value).is_err() {
            return totals;
        }
        totals.elements += 1;
    }
    totals.contents = writer.written() as u64;
    totals
}

#[inline(always)]
fn tag_of(wanted: &Wanted) -> Tag {
    let constructed = wanted.constructed != 0;
    match wanted.class {
        0 => Tag((wanted.number + 32 * wanted.constructed as u32) as u64),
        1 => Tag::application(wanted.number, constructed),
        2 => Tag::context(wanted.number, constructed),
        _ => Tag::private(wanted.number, constructed),
    }
}

#[inline(never)]
pub fn headers(wanted: &[Wanted], out: &mut [u8]) -> Totals {
    put_all(wanted, out, |writer, one| {
        writer.header(tag_of(one), one.length)
    })
}

#[inline(never)]
pub fn elements(numbers: &[u64], out: &mut [u8]) -> Totals {
    put_all(numbers, out, |writer, number| {
        writer.element(Tag::OCTET_STRING, &number.to_be_bytes())
    })
}

#[inline(always)]
fn put_four(writer: &mut Writer<'_>, number: u64) -> Result<(), Error> {
    let octets = number.to_be_bytes();
    for _ in 0..4 {
        writer.element(Tag::OCTET_STRING, &octets)?;
    }
    Ok(())
}

/// With the lengths computed first.
#[inline(never)]
pub fn sequences(numbers: &[u64], out: &mut [u8]) -> Totals {
    put_all(numbers, out, |writer, number| {
        let length = 4 * element_length(Tag::OCTET_STRING, 8)?;
        writer.header(Tag::SEQUENCE, length)?;
        put_four(writer, *number)
    })
}

/// With a begin and an end.
#[inline(never)]
pub fn parts(numbers: &[u64], out: &mut [u8]) -> Totals {
    put_all(numbers, out, |writer, number| {
        writer.inside(Tag::SEQUENCE, |inside| put_four(inside, *number))
    })
}
