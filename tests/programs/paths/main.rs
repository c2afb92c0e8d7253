//! `paths CASES OBLIGATIONS` judges each certification path of the first file. A line for each has
//! the certificate and the rule that it breaks, or, if it is valid where its signatures verify, the
//! number of these; they are written to the second file. `.ci/paths.py` writes the first file.
#![tactic(auto)]

mod case;
mod judged;

use case::Case;
use judged::print_judgement;
use std::{env, fs};

fn main(rt: HostRuntime) -> anyhow::Result<()> {
    let alloc = rt.alloc();
    let words: Vec<String> = env::args(&rt)?.collect(alloc)?;
    let [_, cases, file] = words.as_slice() else {
        return Ok(());
    };
    let octets = fs::read(&rt, cases.as_str())?;
    let (mut rest, mut obligations) = (octets.as_slice(), Vec::new(alloc));
    while let Some((case, after)) = Case::split(alloc, rest)? {
        rest = after;
        print_judgement(&rt, alloc, &case, &mut obligations)?;
    }
    fs::write(&rt, file.as_str(), obligations.as_slice())?;
    Ok(())
}
