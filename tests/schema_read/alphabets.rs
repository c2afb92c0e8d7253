//! Permitted alphabets (X.680 51.7).
use crate::checks::{holds, same, same_at};
use schema_types::Schema;
use schema_read::{Rule, Verdict, read};
use std::alloc::AllocError;

/// A table with five nodes: an IA5String of `A` to `C` and `X`; a UTF8String of up to three characters
/// `a` to `z`, U+E9, U+20AC and U+1F600; a BMPString of one or two characters `a` to `z`, U+20AC and
/// U+20AD; a UniversalString of U+1F600 to U+1F6FF; and a PrintableString of one or two characters.
#[rattlefmt::skip]
const ALPHABETS: [u8; 500] = [
    // the header
    89, 83, 67, 72, 0, 0, 0, 1, 0, 0, 0, 5, 0, 0, 0, 0, 0, 0, 0, 12, 0, 0, 0, 0, 0, 0, 0, 0, 0, 0,
    0, 28,
    // nodes
    22, 0, 0, 0, 0, 0, 0, 22, 0, 0, 0, 0, 0, 0, 0, 3, 0, 0, 0, 0, 0, 0, 0, 0, 0, 0, 0, 0, 0, 0, 0,
    0, 0, 0, 0, 2, 0, 0, 0, 0, 12, 0, 0, 0, 0, 0, 0, 12, 0, 0, 0, 3, 0, 0, 0, 4, 0, 0, 0, 0, 0, 0,
    0, 0, 0, 0, 0, 0, 0, 0, 0, 2, 0, 0, 0, 5, 0, 0, 0, 0, 30, 0, 0, 0, 0, 0, 0, 30, 0, 0, 0, 7, 0,
    0, 0, 3, 0, 0, 0, 0, 0, 0, 0, 0, 0, 0, 0, 0, 0, 0, 0, 7, 0, 0, 0, 3, 0, 0, 0, 0, 28, 0, 0, 0, 0,
    0, 0, 28, 0, 0, 0, 10, 0, 0, 0, 9, 0, 0, 0, 0, 0, 0, 0, 0, 0, 0, 0, 0, 0, 0, 0, 10, 0, 0, 0, 1,
    0, 0, 0, 0, 19, 0, 0, 0, 0, 0, 0, 19, 0, 0, 0, 19, 0, 0, 0, 9, 0, 0, 0, 0, 0, 0, 0, 0, 0, 0, 0,
    0, 0, 0, 0, 11, 0, 0, 0, 1, 0, 0, 0, 0,
    // limits
    0, 0, 0, 2, 0, 0, 0, 0, 0, 0, 0, 65, 0, 0, 0, 0, 0, 0, 0, 67, 0, 0, 0, 2, 0, 0, 0, 0, 0, 0, 0,
    88, 0, 0, 0, 0, 0, 0, 0, 88, 0, 0, 0, 1, 0, 0, 0, 0, 0, 0, 0, 0, 0, 0, 0, 0, 0, 0, 0, 3, 0, 0,
    0, 2, 0, 0, 0, 0, 0, 0, 0, 97, 0, 0, 0, 0, 0, 0, 0, 122, 0, 0, 0, 2, 0, 0, 0, 0, 0, 0, 0, 233,
    0, 0, 0, 0, 0, 0, 0, 233, 0, 0, 0, 2, 0, 0, 0, 0, 0, 0, 32, 172, 0, 0, 0, 0, 0, 0, 32, 172, 0,
    0, 0, 2, 0, 0, 0, 0, 0, 1, 246, 0, 0, 0, 0, 0, 0, 1, 246, 0, 0, 0, 0, 2, 0, 0, 0, 0, 0, 0, 0,
    97, 0, 0, 0, 0, 0, 0, 0, 122, 0, 0, 0, 2, 0, 0, 0, 0, 0, 0, 32, 172, 0, 0, 0, 0, 0, 0, 32, 173,
    0, 0, 0, 1, 0, 0, 0, 0, 0, 0, 0, 1, 0, 0, 0, 0, 0, 0, 0, 2, 0, 0, 0, 2, 0, 0, 0, 0, 0, 1, 246,
    0, 0, 0, 0, 0, 0, 1, 246, 255, 0, 0, 0, 1, 0, 0, 0, 0, 0, 0, 0, 1, 0, 0, 0, 0, 0, 0, 0, 2,
    // the pool
    73, 97, 53, 85, 116, 102, 56, 66, 109, 112, 85, 110, 105, 118, 101, 114, 115, 97, 108, 80, 114,
    105, 110, 116, 97, 98, 108, 101,
];

// Nodes, octets, and whether pyasn1 0.6.3 decodes these as DER with the same constraints.
#[rattlefmt::skip]
const ROWS: [(u32, &[u8], bool); 29] = [
    (0, &[0x16, 0x00], true),
    (0, &[0x16, 0x01, 0x41], true),
    (0, &[0x16, 0x04, 0x41, 0x42, 0x43, 0x58], true),
    (0, &[0x16, 0x01, 0x44], false),
    (0, &[0x16, 0x03, 0x41, 0x42, 0x44], false),
    (0, &[0x16, 0x01, 0x57], false),
    (0, &[0x16, 0x01, 0x61], false),
    (1, &[0x0C, 0x00], true),
    (1, &[0x0C, 0x02, 0x61, 0x7A], true),
    (1, &[0x0C, 0x09, 0xC3, 0xA9, 0xE2, 0x82, 0xAC, 0xF0, 0x9F, 0x98, 0x80], true),
    (1, &[0x0C, 0x02, 0xC3, 0x89], false),
    (1, &[0x0C, 0x07, 0x61, 0xC3, 0xA9, 0xE2, 0x82, 0xAC, 0x7A], false),
    (1, &[0x0C, 0x04, 0xE2, 0x82, 0xAC, 0x41], false),
    (1, &[0x0C, 0x04, 0xF0, 0x9F, 0x98, 0x81], false),
    (2, &[0x1E, 0x04, 0x00, 0x61, 0x20, 0xAC], true),
    (2, &[0x1E, 0x04, 0x20, 0xAC, 0x20, 0xAD], true),
    (2, &[0x1E, 0x00], false),
    (2, &[0x1E, 0x02, 0x00, 0x41], false),
    (2, &[0x1E, 0x02, 0x20, 0xAE], false),
    (2, &[0x1E, 0x06, 0x00, 0x61, 0x00, 0x62, 0x00, 0x63], false),
    (2, &[0x1E, 0x04, 0x00, 0x61, 0x00, 0x62], true),
    (3, &[0x1C, 0x00], true),
    (3, &[0x1C, 0x08, 0x00, 0x01, 0xF6, 0x00, 0x00, 0x01, 0xF6, 0xFF], true),
    (3, &[0x1C, 0x04, 0x00, 0x01, 0xF7, 0x00], false),
    (3, &[0x1C, 0x04, 0x00, 0x00, 0x00, 0x61], false),
    (4, &[0x13, 0x01, 0x61], true),
    (4, &[0x13, 0x02, 0x7A, 0x7A], true),
    (4, &[0x13, 0x00], false),
    (4, &[0x13, 0x03, 0x61, 0x62, 0x63], false),
];

#[test]
fn characters_of_each_coding(rt: HostRuntime) -> Result<(), AllocError> {
    let Ok(schema) = Schema::new(&ALPHABETS) else {
        holds(&rt, false);
        return Ok(());
    };
    for row in 0..ROWS.len() {
        let (node, octets, is_value) = ROWS[row];
        if node >= schema.counts().nodes {
            holds(&rt, false);
            return Ok(());
        }
        let tree = read(rt.alloc(), &schema, node, octets)?;
        same_at(&rt, row, tree.departures.is_empty(), is_value);
    }
    Ok(())
}

#[test]
fn the_rule_that_is_broken(rt: HostRuntime) -> Result<(), AllocError> {
    let Ok(schema) = Schema::new(&ALPHABETS) else {
        holds(&rt, false);
        return Ok(());
    };
    if schema.counts().nodes == 0 {
        holds(&rt, false);
        return Ok(());
    }
    // segments `AB` and `CD` of an IA5String: `D` is none of its characters
    let segments = [0x36, 8, 4, 2, 0x41, 0x42, 4, 2, 0x43, 0x44];
    let tree = read(rt.alloc(), &schema, 0, &segments)?;
    let rules: Vec<Rule> = tree.departures.iter().map(|it| it.rule).collect(rt.alloc())?;
    same(
        &rt,
        rules.as_slice(),
        &[Rule::ConstructedString, Rule::Alphabet],
    );
    same(&rt, Rule::Alphabet.verdict(), Verdict::Neither);
    Ok(())
}
