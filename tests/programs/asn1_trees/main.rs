//! `asn1_trees TABLE PLAIN CASES` reads each case of the third file as a value of its type: by the
//! compiled type, by the table of types in the first file, and by that in the second one. For each
//! case a line has the three answers, and what the octets are by the second table. `.ci/trees.py` writes
//! these files.
#![tactic(auto)]

mod answer;
mod case;
mod compiled;

use answer::Answer;
use schema_types::Schema;
use schema_read::{Tree, Verdict, read};
use case::Case;
use std::alloc::{AllocError, Global};
use std::{env, fs, io};

fn main(rt: HostRuntime) -> io::Result<()> {
    let words: Vec<String> = env::args(&rt)?.collect(rt.alloc())?;
    let [_, table, plain, cases] = words.as_slice() else {
        return Ok(());
    };
    let (table, plain) = (
        fs::read(&rt, table.as_str())?,
        fs::read(&rt, plain.as_str())?,
    );
    let cases = fs::read(&rt, cases.as_str())?;
    match (Schema::new(&table), Schema::new(&plain)) {
        (Ok(table), Ok(plain)) => run(&rt, rt.alloc(), &[table, plain], &cases),
        (table, plain) => println!(rt; "no tables: {:?} {:?}", table.err(), plain.err()),
    }
}

// Prints the answers of each case.
fn run<R: Print>(rt: &R, alloc: Global, tables: &[Schema<'_>; 2], octets: &[u8]) -> io::Result<()> {
    let mut rest = octets;
    while let Some((case, after)) = Case::split(rest) {
        rest = after;
        match compiled::error_of(alloc, case.kind, case.octets) {
            Some(None) => print!(rt; "- ok")?,
            Some(Some(error)) => match error.position() {
                Some(position) => print!(rt; "{position} {:?}", error.kind())?,
                None => print!(rt; "- {:?}", error.kind())?,
            },
            None => print!(rt; "- none")?,
        }
        let mut verdict = Verdict::Der;
        for (table, node) in tables.iter().zip([case.node, case.plain]) {
            match read(alloc, table, node, case.octets) {
                Ok(tree) => {
                    print!(rt; "\t{}", Answer::of(table, &tree))?;
                    verdict = verdict_of(&tree);
                }
                Err(AllocError) => print!(rt; "\tout of memory")?,
            }
        }
        println!(rt; "\t{verdict:?}")?;
    }
    Ok(())
}

// What the departures of a tree leave.
fn verdict_of(tree: &Tree) -> Verdict {
    let mut verdict = Verdict::Der;
    for departure in tree.departures.iter() {
        match departure.rule.verdict() {
            Verdict::Neither => return Verdict::Neither,
            Verdict::Ber => verdict = Verdict::Ber,
            Verdict::Der => {}
        }
    }
    verdict
}
