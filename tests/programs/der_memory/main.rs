//! A program that prints a line with the result of each of its calls. The program makes calls that
//! allocate nothing, prints a line `allocating`, and then makes calls that allocate. Before the
//! line `allocating`, memory is allocated only to prepare for calls; after each such preparation
//! the program prints a line `prepared`. `.ci/refused_memory` counts the requests for memory. For
//! each request after the line `allocating` the script runs the program once and makes that request
//! fail.
#![tactic(auto)]

mod allocating;
mod before;
mod decoding;
mod orders;
mod print;
mod readers;
mod refusals;
mod strings;
mod values;
mod writers;
mod zeros;

use std::io;

fn main(rt: HostRuntime) -> io::Result<()> {
    values::lengths(&rt)?;
    values::sums(&rt)?;
    values::tags(&rt)?;
    values::numbers(&rt)?;
    values::names(&rt)?;
    values::errors(&rt)?;
    readers::plain_calls(&rt)?;
    readers::peeks(&rt)?;
    readers::parts(&rt)?;
    readers::scans(&rt)?;
    readers::positions(&rt)?;
    writers::pieces(&rt)?;
    writers::sequences(&rt)?;
    writers::values(&rt)?;
    before::lengths(&rt)?;
    before::elements(&rt)?;
    before::contents(&rt)?;
    before::boxed(&rt, rt.alloc())?;
    decoding::headers(&rt, rt.alloc())?;
    decoding::elements(&rt, rt.alloc())?;
    decoding::fronts(&rt, rt.alloc())?;
    decoding::by_a_reader(&rt, rt.alloc())?;
    strings::borrowed(&rt)?;
    strings::owned(&rt, rt.alloc())?;
    orders::values(&rt)?;
    orders::lists(&rt)?;
    refusals::of_reading(&rt, rt.alloc())?;
    refusals::of_strings(&rt, rt.alloc())?;
    refusals::of_writing(&rt, rt.alloc())?;
    println!(rt; "allocating")?;
    allocating::calls(&rt, rt.alloc())
}
