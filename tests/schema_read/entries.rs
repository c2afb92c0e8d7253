//! What a tree says of each element of a value.
use crate::schema_types::choices::CHOICES;
use crate::checks::{holds, same, same_at};
use schema_types::Schema;
use schema_read::read;
use std::alloc::AllocError;

const NONE: u32 = 4_294_967_295;

// a Record: the first alternative of an alternative, [2], and an OCTET STRING in [9] where NULL should be
const RECORD: [u8; 13] = [0x30, 11, 0x80, 1, 0xff, 0x82, 1, 5, 0xa9, 3, 4, 1, 0];

#[test]
fn places_and_types(rt: HostRuntime) -> Result<(), AllocError> {
    let Ok(schema) = Schema::new(&CHOICES) else {
        holds(&rt, false);
        return Ok(());
    };
    if schema.counts().nodes < 10 {
        holds(&rt, false);
        return Ok(());
    }
    let tree = read(rt.alloc(), &schema, 2, &RECORD)?;
    same(&rt, tree.departures.len(), 1);
    // the offset, the index of the element around it, the type, the field, the alternative and the depth
    let expected = [
        (0, 0, 2, NONE, NONE, 0),
        (2, 0, 3, 4, 0, 1),
        (5, 0, 7, 6, NONE, 1),
        (8, 0, NONE, NONE, NONE, 1),
        (10, 3, NONE, NONE, NONE, 2),
    ];
    same(&rt, tree.entries.len(), expected.len());
    for (entry, row) in tree.entries.iter().zip(expected) {
        let offset = entry.offset;
        same_at(&rt, offset, offset, row.0);
        same_at(&rt, offset, entry.parent, row.1);
        same_at(&rt, offset, entry.kind, row.2);
        same_at(&rt, offset, entry.field, row.3);
        same_at(&rt, offset, entry.alternative, row.4);
        same_at(&rt, offset, entry.depth, row.5);
    }
    Ok(())
}
