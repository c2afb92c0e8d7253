//! What cursors say of the elements of a value.
use crate::schema_types::choices::CHOICES;
use crate::checks::{holds, same, same_octets};
use schema_cursor::Cursor;
use schema_types::{NodeKind, Schema};
use schema_read::read;
use ber::Universal;
use std::alloc::AllocError;
use std::process::Abort;

// a Record: its field `outer` is the alternative `flag`, and its field `third` the number 5; an OCTET
// STRING in [9] is unexpected
const RECORD: [u8; 13] = [0x30, 11, 0x80, 1, 0xff, 0x82, 1, 5, 0xa9, 3, 4, 1, 0];

#[test]
fn names_and_places(rt: HostRuntime) -> Result<(), AllocError> {
    let Ok(schema) = Schema::new(&CHOICES) else {
        holds(&rt, false);
        return Ok(());
    };
    if schema.counts().nodes < 10 {
        holds(&rt, false);
        return Ok(());
    }
    let tree = read(rt.alloc(), &schema, 2, &RECORD)?;
    match Cursor::root(&RECORD, &schema, &tree) {
        Some(root) => {
            see_record(&rt, root);
            if let Some(flag) = root.at("outer.flag") {
                let path = format!(in rt.alloc(); "{}", flag.place())?;
                same_octets(&rt, path.as_bytes(), b"outer");
            }
        }
        None => holds(&rt, false),
    }
    Ok(())
}

fn see_record(rt: &impl Abort, root: Cursor<'_>) {
    same(rt, root.name(), None);
    same(rt, root.type_name(), Some("Record"));
    same(rt, root.kind(), Some(NodeKind::Universal(Universal::Sequence)));
    same(rt, root.children().count(), 3);
    holds(rt, root.parent().is_none() && root.element(5).is_none());
    let (Some(outer), Some(third), Some(other)) =
        (root.at("outer.flag"), root.field("third"), root.item(2))
    else {
        return holds(rt, false);
    };
    same(rt, outer.name(), Some("outer"));
    same(rt, outer.alternative(), Some("flag"));
    same(rt, outer.boolean(), Some(true));
    same(rt, third.number(), Some(5));
    same_octets(rt, third.octets(), &[0x82, 1, 5]);
    same_octets(rt, third.contents(), &[5]);
    holds(rt, other.node().is_none() && other.is_constructed());
    let Some(inside) = root.element(4) else {
        return holds(rt, false);
    };
    same(rt, inside.parent().map(|it| it.index()), Some(other.index()));
    same(rt, inside.universal(), Some(Universal::OctetString));
    same(rt, inside.octet_string(), Some(&[0u8][..]));
    holds(rt, inside.inner().is_none() && inside.untagged().index() == 4);
    holds(rt, inside.bits().is_none() && inside.enumerated().is_none());
}
