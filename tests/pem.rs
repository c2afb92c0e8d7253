//! Tests of `pem` over the vectors of RFC 4648 and files that `openssl` made.

mod decoding;
mod encoding;
mod files;
mod finding;
mod headers;
mod messages;
mod reading;
mod refusals;
mod texts;
mod writing;
