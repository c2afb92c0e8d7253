//! Header lines of RFC 1421.
use crate::checks::{holds, same, same_octets};
use pem::{Block, Blocks, ErrorKind, Position};

// The block of the text.
fn block_of(text: &[u8]) -> Option<Block<'_>> {
    match Blocks::new(text).next_block() {
        Some(Ok(block)) => Some(block),
        _ => None,
    }
}

#[test]
fn values_of_headers(rt: HostRuntime) {
    let text = b"-----BEGIN A-----\nProc-Type:4,ENCRYPTED \r\nDEK-Info:  DES-EDE3-CBC,00FF\r\nX:\r\n\r\nZg==\n-----END A-----\n";
    let Some(block) = block_of(text) else {
        holds(&rt, false);
        return;
    };
    same(
        &rt,
        block.header(b"Proc-Type"),
        Some(b"4,ENCRYPTED".as_slice()),
    );
    same(
        &rt,
        block.header(b"DEK-Info"),
        Some(b"DES-EDE3-CBC,00FF".as_slice()),
    );
    same(&rt, block.header(b"X"), Some(b"".as_slice()));
    same(&rt, block.header(b"DEK"), None);
    same(&rt, block.header(b"dek-info"), None);
    holds(&rt, block.is_encrypted());
    same_octets(&rt, block.headers(), &text[18..76]);
    same_octets(&rt, block.body(), b"Zg==\n");
    same(
        &rt,
        block.start(),
        Position {
            offset: 78,
            line: 6,
            column: 1,
        },
    );
}

#[test]
fn blocks_without_headers(rt: HostRuntime) {
    let Some(block) = block_of(b"-----BEGIN A-----\n\nZg==\n\n-----END A-----\n") else {
        holds(&rt, false);
        return;
    };
    same_octets(&rt, block.headers(), b"");
    same(&rt, block.header(b"Proc-Type"), None);
    holds(&rt, !block.is_encrypted());
    same_octets(&rt, block.body(), b"\nZg==\n\n");
}

#[test]
fn headers_that_say_something_else(rt: HostRuntime) {
    let Some(block) = block_of(b"-----BEGIN A-----\nProc-Type: 4,MIC-CLEAR\n\n-----END A-----")
    else {
        holds(&rt, false);
        return;
    };
    holds(&rt, !block.is_encrypted());
    same_octets(&rt, block.body(), b"");
}

#[test]
fn headers_that_no_empty_line_ends(rt: HostRuntime) {
    let text = b"-----BEGIN A-----\nProc-Type: 4,ENCRYPTED\nZg==\n-----END A-----\n";
    let Some(Err(error)) = Blocks::new(text).next_block() else {
        holds(&rt, false);
        return;
    };
    same(&rt, error.kind, ErrorKind::UnterminatedHeaders);
    same(
        &rt,
        error.position,
        Position {
            offset: 46,
            line: 4,
            column: 1,
        },
    );
}
