//! Contents of times, of named bits and of BOOLEANs.
use crate::checks::{holds, same_octets};
use schema_write::to_der;
use schema_types::Schema;
use schema_kinds::table_octets;
use std::alloc::AllocError;

// A type, a value under BER, and the same in DER. Times are those of `date -u -d '2024-02-29 23:59:00 -0130'` and its
// kin; bits are those of `openssl asn1parse -genstr FORMAT:BITLIST,BITSTRING:0,2`; a SEQUENCE is that of
// `openssl asn1parse -genconf` with `asn1=SEQUENCE:s`, `[s]` and `a=BOOLEAN:TRUE`.
const ROWS: [(&str, &[u8], &[u8]); 12] = [
    (
        "Time",
        b"\x17\x11240229235900-0130",
        b"\x17\x0d240301012900Z",
    ),
    ("Time", b"\x17\x0f9912312359+0001", b"\x17\x0d991231235800Z"),
    ("Time", b"\x17\x0f0001010000+0100", b"\x17\x0d991231230000Z"),
    (
        "Time",
        b"\x17\x11500101060000+0600",
        b"\x17\x0d500101000000Z",
    ),
    ("Time", b"\x17\x0f4912312259-0100", b"\x17\x0d491231235900Z"),
    ("Time", b"\x18\x0d2024022912+14", b"\x18\x0f20240228220000Z"),
    ("Time", b"\x18\x0e2024022912.25Z", b"\x18\x0f20240229121500Z"),
    (
        "Time",
        b"\x18\x1320240229121500,000Z",
        b"\x18\x0f20240229121500Z",
    ),
    ("KeyUsage", b"\x03\x03\x07\xa0\x00", b"\x03\x02\x05\xa0"),
    (
        "KeyUsage",
        b"\x23\x80\x03\x02\x00\xa0\x03\x02\x07\x00\x00\x00",
        b"\x03\x02\x05\xa0",
    ),
    (
        "BasicConstraints",
        b"\x30\x80\x01\x01\x01\x00\x00",
        b"\x30\x03\x01\x01\xff",
    ),
    ("BasicConstraints", b"\x30\x03\x01\x01\x00", b"\x30\x00"),
];

#[test]
fn contents(rt: HostRuntime) -> Result<(), AllocError> {
    let table = table_octets(rt.alloc())?;
    let Ok(schema) = Schema::new(table.as_slice()) else {
        holds(&rt, false);
        return Ok(());
    };
    for (name, octets, expected) in ROWS {
        let found = match schema.find_node(name) {
            Some(node) => match to_der(rt.alloc(), &schema, node, octets) {
                Ok(written) => {
                    holds(&rt, written.is_der);
                    written.octets
                }
                Err(_) => Vec::new(rt.alloc()),
            },
            None => Vec::new(rt.alloc()),
        };
        same_octets(&rt, found.as_slice(), expected);
    }
    Ok(())
}
