//! Writing blocks: they are what `openssl` writes, and are read again.
use super::texts::{CERTIFICATE, CERTIFICATE_DER, EC_KEY_DER, KEY, KEY_DER, TWO_BLOCKS};
use crate::checks::{holds, same, same_octets};
use pem::{BlockText, Blocks, ErrorKind, block_len, is_label, write_block};
use std::alloc::AllocError;
use std::process::Abort;

// Writes the block, and compares it with the text.
fn writes(rt: &impl Abort, label: &str, octets: &[u8], text: &[u8]) {
    let mut buffer = [0xA5u8; 1024];
    same(rt, block_len(label, octets), text.len());
    same(rt, write_block(label, octets, &mut buffer), Ok(text.len()));
    same_octets(rt, &buffer[..text.len()], text);
    same(rt, buffer[text.len()], 0xA5);
}

#[test]
fn blocks_of_openssl(rt: HostRuntime) {
    writes(&rt, "PRIVATE KEY", &KEY_DER, KEY);
    writes(&rt, "EC PRIVATE KEY", &EC_KEY_DER, &TWO_BLOCKS[75..]);
    let Some(Ok(block)) = Blocks::new(CERTIFICATE).next_block() else {
        holds(&rt, false);
        return;
    };
    writes(
        &rt,
        "CERTIFICATE",
        &CERTIFICATE_DER,
        &CERTIFICATE[block.begin().offset..],
    );
}

#[test]
fn lines_of_64_characters(rt: HostRuntime) {
    writes(&rt, "", &[], b"-----BEGIN -----\n-----END -----\n");
    writes(
        &rt,
        "A",
        &[0],
        b"-----BEGIN A-----\nAA==\n-----END A-----\n",
    );
    let full = b"-----BEGIN A-----\nAAAAAAAAAAAAAAAAAAAAAAAAAAAAAAAAAAAAAAAAAAAAAAAAAAAAAAAAAAAAAAAA\n-----END A-----\n";
    writes(&rt, "A", &[0; 48], full);
    let more = b"-----BEGIN A-----\nAAAAAAAAAAAAAAAAAAAAAAAAAAAAAAAAAAAAAAAAAAAAAAAAAAAAAAAAAAAAAAAA\nAA==\n-----END A-----\n";
    writes(&rt, "A", &[0; 49], more);
}

#[test]
fn what_is_written_is_read(rt: HostRuntime) {
    let mut octets = [0u8; 256];
    for index in 0..256u16 {
        octets[index as usize] = (index * 167 % 256) as u8;
    }
    for len in 0..256usize {
        let mut text = [0u8; 512];
        let Ok(end) = write_block("A", &octets[..len], &mut text) else {
            holds(&rt, false);
            return;
        };
        let Some(Ok(block)) = Blocks::new(&text[..end]).next_block() else {
            holds(&rt, false);
            return;
        };
        let mut buffer = [0u8; 256];
        same(&rt, block.decode_into(&mut buffer[..len]), Ok(len));
        same_octets(&rt, &buffer[..len], &octets[..len]);
    }
}

#[test]
fn refusals(rt: HostRuntime) {
    let mut buffer = [7u8; 38];
    let refused = Err(ErrorKind::BufferTooSmall { needed: 39 });
    same(&rt, write_block("A", &[0], &mut buffer), refused);
    same(
        &rt,
        write_block("A ", &[0], &mut buffer),
        Err(ErrorKind::InvalidLabel),
    );
    same_octets(&rt, &buffer, &[7; 38]);
}

#[test]
fn labels(rt: HostRuntime) {
    for label in [
        "",
        "A",
        "X509 CRL",
        "a-b",
        "~",
        "!",
        "a.b_c",
        "TRUSTED CERTIFICATE",
    ] {
        holds(&rt, is_label(label.as_bytes()));
        holds(&rt, BlockText::new(label, &[]).is_some());
    }
    for label in [
        " ", "-", " A", "A ", "-A", "A-", "A  B", "A- B", "A--B", "A\tB", "A\u{7f}", "\u{e9}",
        "A\n",
    ] {
        holds(&rt, !is_label(label.as_bytes()));
        holds(&rt, BlockText::new(label, &[]).is_none());
    }
}

#[test]
fn a_block_prints_as_it_is_written(rt: HostRuntime) -> Result<(), AllocError> {
    let Some(key) = BlockText::new("PRIVATE KEY", &KEY_DER) else {
        holds(&rt, false);
        return Ok(());
    };
    let text = format!(in rt.alloc(); "{key}")?;
    same_octets(&rt, text.as_bytes(), KEY);
    for len in [0, 47, 48, 49, 96, 97] {
        let octets = [0x5Au8; 100];
        let Some(block) = BlockText::new("A", &octets[..len]) else {
            holds(&rt, false);
            return Ok(());
        };
        let mut buffer = [0u8; 256];
        let Ok(end) = write_block("A", &octets[..len], &mut buffer) else {
            holds(&rt, false);
            return Ok(());
        };
        let text = format!(in rt.alloc(); "{block}")?;
        same_octets(&rt, text.as_bytes(), &buffer[..end]);
    }
    Ok(())
}
