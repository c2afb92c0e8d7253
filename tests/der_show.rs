//! Tests of the program `der_show` over files that `openssl` made, over messages of other protocols, and over the rules of RFC 4514 and RFC 8259.

mod departures;
mod files;
mod json;
mod messages;
mod modules;
mod names;
mod octets;
mod printed;
mod secrets;
mod texts;
mod unknown;
