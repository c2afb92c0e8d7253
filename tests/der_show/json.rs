//! JSON, by RFC 8259.
use super::octets::CERTIFICATE;
use super::printed::has;
use crate::checks::{same, same_octets};
use crate::pkcs1::rsa_octets::PUBLIC;
use der_show_lib::{Options, Shown, show_in_memory};
use std::alloc::Global;
use std::process::Abort;

fn json() -> Options {
    let mut options = Options::new();
    options.shown = Shown::Json;
    options
}

#[test]
fn a_key_is_an_object_with_the_names_of_the_module(rt: HostRuntime) {
    let finished = show_in_memory(rt.alloc(), json(), "a \"b\"\u{202e}", &PUBLIC);
    let expected = r#"{
  "file": "a \"b\"\u202e",
  "values": [
    {
      "kind": "rsa-public-key",
      "offset": 0,
      "value": {
        "modulus": "00BDDBDE90084FC48BE365DB9533DC76F85D810DB8AD27898092D38216CEAC60041A023A03BE7C81AE693BE9352A9DB103AA1A04B05D0F641730417AF99E05AA0D",
        "publicExponent": 65537
      },
      "departures": [],
      "departureCount": 0
    }
  ],
  "departures": [],
  "departureCount": 0
}
"#;
    same_octets(&rt, finished.out.target.buffer.as_slice(), expected.as_bytes());
    same(&rt, finished.status, 0);
}

#[test]
fn departures_are_objects(rt: HostRuntime) {
    let mut octets = CERTIFICATE;
    octets[361] = 0x04;
    let finished = show_in_memory(rt.alloc(), json(), "f", &octets);
    let expected = r#"
      "departures": [
        {"path": "tbsCertificate.extensions[4].extnValue", "offset": 361, "section": "X.680 31", "rule": "tag of another type", "ber": false, "found": "04020204"}
      ],
      "departureCount": 1
    }
  ],
  "departures": [],
  "departureCount": 1
}
"#;
    has(&rt, &finished.out.target.buffer, expected);
    has(&rt, &finished.out.target.buffer, r#""extnValue": {"tag": "OCTET STRING", "octets": "0204"}"#);
    same(&rt, finished.status, 1);
}

// What is printed as JSON for octets that are not DER.
fn printed_as_json(rt: &impl Abort, alloc: Global, octets: &[u8]) -> Vec<u8> {
    let finished = show_in_memory(alloc, json(), "f", octets);
    same(rt, finished.status, 1);
    finished.out.target.buffer
}

#[test]
fn departures_outside_of_values_belong_to_the_file(rt: HostRuntime) {
    // an element with the tag 78 and a length of 121 octets (X.690, 8.1.4), of which one is there
    let mut octets = [0u8; 442];
    octets[..439].copy_from_slice(&CERTIFICATE);
    octets[439..].copy_from_slice(b"xyz");
    let printed = printed_as_json(&rt, rt.alloc(), &octets);
    let departures = r#"
  "departures": [
    {"path": "", "offset": 439, "section": "X.690 8.1.1, 8.9.2", "rule": "unexpected element", "ber": false, "found": "78797A"}
  ],
  "departureCount": 2
}
"#;
    has(&rt, &printed, departures);
}

#[test]
fn a_malformed_header_is_a_departure_of_the_file(rt: HostRuntime) {
    // X.690, 8.1.3.5: the length octet FF is not used
    let printed = printed_as_json(&rt, rt.alloc(), &[0x30, 0xFF, 0x00]);
    let departures = r#"
  "departures": [
    {"path": "", "offset": 0, "section": "X.690 8.1.2, 8.1.3", "rule": "malformed header", "ber": false, "found": "30FF00"}
  ],
  "departureCount": 1
}
"#;
    has(&rt, &printed, departures);
}

#[test]
fn all_departures_are_counted(rt: HostRuntime) {
    // 101 INTEGERs whose length has an octet too many (X.690, 10.1)
    let mut octets = [0u8; 408];
    octets[..4].copy_from_slice(&[0x30, 0x82, 0x01, 0x94]);
    for item in octets[4..].chunks_mut(4) {
        item.copy_from_slice(&[0x02, 0x81, 0x01, 0x2A]);
    }
    let printed = printed_as_json(&rt, rt.alloc(), &octets);
    has(&rt, &printed, "\n      ],\n      \"departureCount\": 101\n    }\n  ],\n  \"departures\": [],\n  \"departureCount\": 101\n}\n");
}
