//! `cursors TABLE NODE FILE` reads a certificate in DER by a table of types, and prints each element,
//! as `openssl asn1parse` does, and values of some fields by their paths. `.ci/cursors.py` writes the table.
#![tactic(auto)]

mod elements;
mod values;

use schema_cursor::Cursor;
use schema_types::Schema;
use schema_read::read;
use elements::print_elements;
use std::{env, fs, io};
use values::print_values;

fn main(rt: HostRuntime) -> io::Result<()> {
    let words: Vec<String> = env::args(&rt)?.collect(rt.alloc())?;
    let [_, table, node, file] = words.as_slice() else {
        return Ok(());
    };
    let (table, octets) = (
        fs::read(&rt, table.as_str())?,
        fs::read(&rt, file.as_str())?,
    );
    let (Ok(schema), Ok(node)) = (Schema::new(&table), node.as_str().parse::<u32>()) else {
        return println!(rt; "no table");
    };
    let tree = read(rt.alloc(), &schema, node, &octets)?;
    println!(rt; "{} departures", tree.departures.len())?;
    match Cursor::root(&octets, &schema, &tree) {
        Some(root) => {
            print_elements(&rt, rt.alloc(), root)?;
            print_values(&rt, root)
        }
        None => println!(rt; "no elements"),
    }
}
