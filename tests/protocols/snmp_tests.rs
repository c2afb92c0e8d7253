//! Messages of SNMP.
use der::{DecodeBytes, Encode, EncodingRules};
use der_asn1::{Implicit, ObjectIdentifierRef};
use snmp::{ApplicationSyntax, Message, ObjectSyntax, Pdu, SimpleSyntax, VarBindData};

// The second message in tests/trees/snmp.tsv: a response with the values 4294967295 of a TimeTicks, "Linux" and
// -2147483648.
static RESPONSE: [u8; 71] = [
    0x30, 0x45, 0x02, 0x01, 0x01, 0x04, 0x06, 0x70, 0x75, 0x62, 0x6C, 0x69, 0x63, 0xA2, 0x38, 0x02,
    0x01, 0xFB, 0x02, 0x01, 0x00, 0x02, 0x01, 0x00, 0x30, 0x2D, 0x30, 0x11, 0x06, 0x08, 0x2B, 0x06,
    0x01, 0x02, 0x01, 0x01, 0x03, 0x00, 0x43, 0x05, 0x00, 0xFF, 0xFF, 0xFF, 0xFF, 0x30, 0x0C, 0x06,
    0x03, 0x2B, 0x06, 0x01, 0x04, 0x05, 0x4C, 0x69, 0x6E, 0x75, 0x78, 0x30, 0x0A, 0x06, 0x02, 0x2B,
    0x07, 0x02, 0x04, 0x80, 0x00, 0x00, 0x00,
];

#[test]
fn a_response_is_read(rt: HostRuntime) {
    let alloc = rt.alloc();
    let Ok(message) = Message::from_der(alloc, &RESPONSE) else {
        assert!(rt; false);
        return;
    };
    assert_eq!(rt; message.version.to_number::<u8>(), Some(1));
    assert_eq!(rt; message.community.octets(), b"public".as_slice());
    let Ok(Implicit(pdu)) = message.data.decode_as::<Implicit<Pdu<'_>, 2>>(alloc, EncodingRules::Der) else {
        assert!(rt; false);
        return;
    };
    assert_eq!(rt; pdu.request_id.to_number::<i64>(), Some(-5));
    let mut bindings = pdu.variable_bindings.iter(alloc);
    match bindings.next() {
        Some(first) => match first.data {
            VarBindData::Value(ObjectSyntax::ApplicationWide(ApplicationSyntax::TimeticksValue(ticks))) => {
                assert_eq!(rt; ticks.0.0.get(), 4294967295);
            }
            _ => assert!(rt; false),
        },
        None => assert!(rt; false),
    }
    match bindings.next() {
        Some(second) => match second.data {
            VarBindData::Value(ObjectSyntax::Simple(SimpleSyntax::StringValue(text))) => {
                assert_eq!(rt; text.octets(), b"Linux".as_slice());
            }
            _ => assert!(rt; false),
        },
        None => assert!(rt; false),
    }
    match bindings.next() {
        Some(third) => {
            assert!(rt; third.name == ObjectIdentifierRef::new(&[0x2B, 7]).unwrap_or(third.name));
            match third.data {
                VarBindData::Value(ObjectSyntax::Simple(SimpleSyntax::IntegerValue(number))) => {
                    assert_eq!(rt; number.to_number::<i64>(), Some(-2147483648));
                }
                _ => assert!(rt; false),
            }
        }
        None => assert!(rt; false),
    }
    assert!(rt; bindings.next().is_none());
}

#[test]
fn a_response_is_written(rt: HostRuntime) {
    let Ok(message) = Message::from_der(rt.alloc(), &RESPONSE) else {
        assert!(rt; false);
        return;
    };
    let mut buffer = [0; 100];
    match message.encode_to_slice(&mut buffer) {
        Ok(written) => assert_eq!(rt; written, RESPONSE.as_slice()),
        Err(_) => assert!(rt; false),
    }
}
