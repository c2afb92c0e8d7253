//! Tests of values under BER that `schema_write` writes in DER. `tools/ber_oracle` compares more of them with asn1ct, and
//! `tools/suites` with openssl.

mod values;
