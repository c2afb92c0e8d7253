//! Printed messages.
use crate::checks::same;
use pem::{Error, ErrorKind, Position};
use std::alloc::AllocError;

#[test]
fn an_error_prints_its_place(rt: HostRuntime) -> Result<(), AllocError> {
    let error = Error {
        kind: ErrorKind::InvalidCharacter,
        position: Position {
            offset: 30,
            line: 4,
            column: 3,
        },
    };
    let text = format!(in rt.alloc(); "{error}")?;
    same(
        &rt,
        text.as_str(),
        "line 4, column 3: a character that is not base64",
    );
    Ok(())
}

#[test]
fn every_kind_prints(rt: HostRuntime) -> Result<(), AllocError> {
    for (kind, text) in [
        (
            ErrorKind::BufferTooSmall { needed: 7 },
            "the buffer is too short; 7 octets are needed",
        ),
        (
            ErrorKind::InvalidCharacter,
            "a character that is not base64",
        ),
        (
            ErrorKind::UnexpectedPadding,
            "`=` where a base64 digit must be",
        ),
        (
            ErrorKind::TrailingBits,
            "`=` after a digit whose unused bits are not zero",
        ),
        (
            ErrorKind::MissingPadding,
            "a base64 digit where a second `=` must be",
        ),
        (
            ErrorKind::DataAfterPadding,
            "base64 continues after its padding",
        ),
        (
            ErrorKind::Incomplete,
            "the base64 text ends within a group of four characters",
        ),
        (ErrorKind::MalformedBegin, "a malformed `-----BEGIN` line"),
        (ErrorKind::MalformedEnd, "a malformed `-----END` line"),
        (
            ErrorKind::MissingEnd,
            "the `-----END` line of the block is missing",
        ),
        (
            ErrorKind::LabelMismatch,
            "the label differs from that of the block's `-----BEGIN` line",
        ),
        (
            ErrorKind::UnterminatedHeaders,
            "no empty line after the headers of the block",
        ),
        (ErrorKind::InvalidLabel, "not a label"),
    ] {
        same(&rt, format!(in rt.alloc(); "{kind}")?.as_str(), text);
    }
    Ok(())
}
