//! Files of `openssl`, with LF and with CR and LF.
use super::texts::{
    CERTIFICATE, CERTIFICATE_DER, EC_KEY_DER, ENCRYPTED, KEY, KEY_DER, PARAMETERS_DER, TWO_BLOCKS,
};
use crate::checks::{holds, same, same_octets};
use pem::{Block, Blocks, Position};
use std::process::Abort;

// Compares the next block's label and contents.
fn next_is(rt: &impl Abort, blocks: &mut Blocks<'_>, label: &str, octets: &[u8]) {
    let Some(Ok(block)) = blocks.next_block() else {
        holds(rt, false);
        return;
    };
    same(rt, block.label(), label);
    decodes(rt, &block, octets);
}

// Compares the contents of the block.
fn decodes(rt: &impl Abort, block: &Block<'_>, octets: &[u8]) {
    let mut buffer = [0u8; 1024];
    same(rt, block.decoded_len(), octets.len());
    same(rt, block.decode_into(&mut buffer), Ok(octets.len()));
    same_octets(rt, &buffer[..octets.len()], octets);
}

#[test]
fn one_block(rt: HostRuntime) {
    let mut blocks = Blocks::new(KEY);
    next_is(&rt, &mut blocks, "PRIVATE KEY", &KEY_DER);
    holds(&rt, blocks.next_block().is_none());
    holds(&rt, blocks.next_block().is_none());
}

#[test]
fn two_blocks(rt: HostRuntime) {
    let mut blocks = Blocks::new(TWO_BLOCKS);
    next_is(&rt, &mut blocks, "EC PARAMETERS", &PARAMETERS_DER);
    next_is(&rt, &mut blocks, "EC PRIVATE KEY", &EC_KEY_DER);
    holds(&rt, blocks.next_block().is_none());
}

#[test]
fn text_before_a_block_is_skipped(rt: HostRuntime) {
    let mut blocks = Blocks::new(CERTIFICATE);
    let Some(Ok(block)) = blocks.next_block() else {
        holds(&rt, false);
        return;
    };
    same(&rt, block.label(), "CERTIFICATE");
    decodes(&rt, &block, &CERTIFICATE_DER);
    same_octets(&rt, block.headers(), b"");
    holds(&rt, !block.is_encrypted());
    same(&rt, block.begin().column, 1);
    same(&rt, block.start().line, block.begin().line + 1);
    same(&rt, block.end().line, block.begin().line + 8);
}

#[test]
fn headers_of_an_encrypted_key(rt: HostRuntime) {
    let mut blocks = Blocks::new(ENCRYPTED);
    let Some(Ok(block)) = blocks.next_block() else {
        holds(&rt, false);
        return;
    };
    same(&rt, block.label(), "EC PRIVATE KEY");
    holds(&rt, block.is_encrypted());
    same(
        &rt,
        block.header(b"Proc-Type"),
        Some(b"4,ENCRYPTED".as_slice()),
    );
    same(
        &rt,
        block.start(),
        Position {
            offset: 110,
            line: 5,
            column: 1,
        },
    );
    same(&rt, block.decoded_len(), 128);
    let mut buffer = [0u8; 128];
    same(&rt, block.decode_into(&mut buffer), Ok(128));
}

// Writes the text with CR before each LF, and returns the length.
fn with_cr(text: &[u8], buffer: &mut [u8]) -> usize {
    let mut end = 0;
    for octet in text {
        if *octet == b'\n' {
            buffer[end] = b'\r';
            end += 1;
        }
        buffer[end] = *octet;
        end += 1;
    }
    end
}

#[test]
fn lines_ended_by_cr_and_lf(rt: HostRuntime) {
    let mut buffer = [0u8; 4096];
    let len = with_cr(TWO_BLOCKS, &mut buffer);
    let mut blocks = Blocks::new(&buffer[..len]);
    next_is(&rt, &mut blocks, "EC PARAMETERS", &PARAMETERS_DER);
    next_is(&rt, &mut blocks, "EC PRIVATE KEY", &EC_KEY_DER);
    holds(&rt, blocks.next_block().is_none());
    let len = with_cr(ENCRYPTED, &mut buffer);
    let Some(Ok(block)) = Blocks::new(&buffer[..len]).next_block() else {
        holds(&rt, false);
        return;
    };
    same(
        &rt,
        block.header(b"Proc-Type"),
        Some(b"4,ENCRYPTED".as_slice()),
    );
    same(&rt, block.decoded_len(), 128);
}
