//! Blocks in texts: what is skipped, what is refused and where, counted by hand.
use crate::checks::{holds, same, same_at, same_octets};
use pem::{Blocks, ErrorKind, Position};
use std::process::Abort;

// Compares the place of the next error, after which there is no block.
fn refuses(rt: &impl Abort, text: &str, kind: ErrorKind, place: (usize, usize, usize)) {
    let mut blocks = Blocks::new(text.as_bytes());
    let Some(Err(error)) = blocks.next_block() else {
        holds(rt, false);
        return;
    };
    let at = error.position;
    same_at(rt, text, error.kind, kind);
    same_at(rt, text, (at.offset, at.line, at.column), place);
    holds(rt, blocks.next_block().is_none());
}

// Whether the text has no block and no error.
fn has_none(text: &str) -> bool {
    Blocks::new(text.as_bytes()).next_block().is_none()
}

#[test]
fn texts_without_blocks(rt: HostRuntime) {
    for text in [
        "",
        "\n",
        "no block",
        " -----BEGIN A-----\nZg==\n-----END A-----\n",
        "----BEGIN A----\n",
        "---- BEGIN SSH2 PUBLIC KEY ----\n",
        "-----END A-----\n",
        "-----BEGIN",
        "text -----BEGIN A-----\n",
    ] {
        holds(&rt, has_none(text));
    }
}

#[test]
fn the_least_blocks(rt: HostRuntime) {
    // No octets, no last LF, no label.
    let Some(Ok(block)) = Blocks::new(b"-----BEGIN -----\n-----END -----").next_block() else {
        holds(&rt, false);
        return;
    };
    same(&rt, block.label(), "");
    same_octets(&rt, block.body(), b"");
    let mut empty = [0u8; 0];
    same(&rt, block.decode_into(&mut empty), Ok(0));
}

#[test]
fn labels_and_places(rt: HostRuntime) {
    let text =
        b"a\nb\n-----BEGIN X509 CRL----- \t\r\nZm9v\r\nZg==\r\n-----END X509 CRL-----  \nc\n\
-----BEGIN a.b-c d-----\nZm8=\n-----END a.b-c d-----\nd";
    let mut blocks = Blocks::new(text);
    let Some(Ok(first)) = blocks.next_block() else {
        holds(&rt, false);
        return;
    };
    same(&rt, first.label(), "X509 CRL");
    same_octets(&rt, first.body(), b"Zm9v\r\nZg==\r\n");
    same(
        &rt,
        first.begin(),
        Position {
            offset: 4,
            line: 3,
            column: 1,
        },
    );
    same(
        &rt,
        first.start(),
        Position {
            offset: 32,
            line: 4,
            column: 1,
        },
    );
    same(
        &rt,
        first.end(),
        Position {
            offset: 44,
            line: 6,
            column: 1,
        },
    );
    let Some(Ok(second)) = blocks.next_block() else {
        holds(&rt, false);
        return;
    };
    same(&rt, second.label(), "a.b-c d");
    same(
        &rt,
        second.begin(),
        Position {
            offset: 71,
            line: 8,
            column: 1,
        },
    );
    holds(&rt, blocks.next_block().is_none());
}

#[test]
fn errors_inside_a_block_have_places_in_the_file(rt: HostRuntime) {
    let text = b"text\n-----BEGIN A-----\nZm9v\nZm!v\n-----END A-----\n";
    let Some(Ok(block)) = Blocks::new(text).next_block() else {
        holds(&rt, false);
        return;
    };
    let mut buffer = [0u8; 6];
    let Err(error) = block.decode_into(&mut buffer) else {
        holds(&rt, false);
        return;
    };
    same(&rt, error.kind, ErrorKind::InvalidCharacter);
    same(
        &rt,
        error.position,
        Position {
            offset: 30,
            line: 4,
            column: 3,
        },
    );
}

#[test]
fn lines_that_are_malformed(rt: HostRuntime) {
    let begin = ErrorKind::MalformedBegin;
    refuses(
        &rt,
        "-----BEGIN A----\nZg==\n-----END A-----\n",
        begin,
        (0, 1, 1),
    );
    refuses(
        &rt,
        "\n-----BEGIN A-----x\n-----END A-----\n",
        begin,
        (1, 2, 1),
    );
    refuses(
        &rt,
        "-----BEGIN  A-----\n-----END  A-----\n",
        begin,
        (0, 1, 1),
    );
    refuses(
        &rt,
        "-----BEGIN A -----\n-----END A -----\n",
        begin,
        (0, 1, 1),
    );
    refuses(
        &rt,
        "-----BEGIN A--B-----\n-----END A--B-----\n",
        begin,
        (0, 1, 1),
    );
    refuses(
        &rt,
        "-----BEGIN \u{e9}-----\n-----END \u{e9}-----\n",
        begin,
        (0, 1, 1),
    );
    refuses(&rt, "-----BEGIN ----\n", begin, (0, 1, 1));
    let end = ErrorKind::MalformedEnd;
    refuses(
        &rt,
        "-----BEGIN A-----\nZg==\n-----END A----\n",
        end,
        (23, 3, 1),
    );
    refuses(
        &rt,
        "-----BEGIN A-----\nZg==\n-----END A-----B\n",
        end,
        (23, 3, 1),
    );
}

#[test]
fn ends_that_are_missing_or_differ(rt: HostRuntime) {
    let missing = ErrorKind::MissingEnd;
    refuses(&rt, "-----BEGIN A-----", missing, (17, 1, 18));
    refuses(&rt, "-----BEGIN A-----\nZg==\n", missing, (23, 3, 1));
    refuses(
        &rt,
        "-----BEGIN A-----\nZg==\n-----BEGIN A-----\n",
        missing,
        (23, 3, 1),
    );
    refuses(
        &rt,
        "-----BEGIN A-----\nZg==\n -----END A-----",
        missing,
        (39, 3, 17),
    );
    let differs = ErrorKind::LabelMismatch;
    refuses(
        &rt,
        "-----BEGIN A-----\nZg==\n-----END B-----\n",
        differs,
        (32, 3, 10),
    );
    refuses(
        &rt,
        "-----BEGIN A-----\nZg==\n-----END a-----\n",
        differs,
        (32, 3, 10),
    );
}
