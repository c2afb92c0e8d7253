//! Writers that fail, and an output that never fails.
ghost use Rattle.std.specs.Prelude.{true, None};

use super::{USAGE, words_of};
use der_tool_lib::{Output, run};
use std::io;
use std::test::Fail;

const LINES: &str = "tag: INTEGER\nconstructed: no\nlength: 1\nrest: 2a00\n";

const BER_LINES: &str = "tag: OCTET STRING\nconstructed: yes\nlength: 1\nrest: 09\n";

// Each command with its result and with an error line, and other words.
const ROWS: [(&str, u8, &str); 13] = [
    ("head 02012A00", 0, LINES),
    (
        "head 04817F",
        1,
        "error: incorrect length for OCTET STRING at DER byte 3\n",
    ),
    ("head --ber 240109", 0, BER_LINES),
    (
        "head --ber 0480",
        1,
        "error: ASN.1 DER message is incomplete: expected 3, actual 2 at DER byte 2\n",
    ),
    ("tlv 02012A00", 0, "02012a\n"),
    ("tlv 0184FFFFFFFF", 1, "error: integer overflow\n"),
    ("tlv --ber 308005000000FF", 0, "308005000000\n"),
    (
        "tlv --ber 04800000",
        1,
        "error: indefinite length disallowed/malformed at DER byte 2\n",
    ),
    ("order 3000 1600", 0, "greater\n"),
    (
        "order 0405 3000",
        1,
        "error: ASN.1 DER message is incomplete: expected 3, actual 2 at DER byte 2\n",
    ),
    ("join 240524030401AA", 0, "aa\n"),
    ("head 0", 2, USAGE),
    ("order --ber 3000 3000", 2, USAGE),
];

/// A writer that accepts one octet per call of `write`. The field `calls` is the number of calls
/// that may still succeed. When `calls` is 0, each call fails.
#[derive(Drop)]
struct Choppy {
    taken: Vec<u8>,
    calls: usize,
}

impl io::Write for Choppy {
    fn write(&mut self, buf: &[u8]) -> io::Result<usize> {
        if self.calls == 0 {
            return Err(io::Error::from(io::ErrorKind::BrokenPipe));
        }
        self.calls -= 1;
        let count = buf.len().min(1);
        self.taken.extend_from_slice(&buf[..count])?;
        Ok(count)
    }

    fn flush(&mut self) -> io::Result<()> {
        Ok(())
    }
}

/// A writer whose `flush` fails. If `takes` is true, `write` accepts all octets. If `takes` is
/// false, `write` accepts no octet, but returns `Ok`.
#[derive(Drop)]
struct Broken {
    takes: bool,
}

impl io::Write for Broken {
    fn write(&mut self, buf: &[u8]) -> io::Result<usize> {
        Ok(if self.takes { buf.len() } else { 0 })
    }

    fn flush(&mut self) -> io::Result<()> {
        Err(io::Error::from(io::ErrorKind::BrokenPipe))
    }
}

// Each write fails in turn, and at last none does.
#[test]
fn a_failed_write_is_status_1(rt: HostRuntime) -> Result<(), Fail> {
    for (line, status, text) in ROWS {
        let words = words_of(rt.alloc(), line)?;
        for calls in 0..=text.len() {
            let mut out = Choppy {
                taken: Vec::new(rt.alloc()),
                calls,
            };
            let want = if calls < text.len() { 1 } else { status };
            assert_eq!(rt;
                run(rt.alloc(), &words, &mut out),
                want,
                "at {line}, {calls}"
            );
            if calls == text.len() {
                assert!(rt; out.taken.as_slice() == text.as_bytes(), "at {line}");
            }
        }
    }
    Ok(())
}

#[test]
fn a_writer_that_takes_nothing_or_keeps_it_is_status_1(rt: HostRuntime) -> Result<(), Fail> {
    for (line, _, _) in ROWS {
        let words = words_of(rt.alloc(), line)?;
        for takes in [false, true] {
            let mut out = Broken { takes };
            assert_eq!(rt; run(rt.alloc(), &words, &mut out), 1, "at {line}, {takes}");
        }
    }
    Ok(())
}

/// An output that counts the octets it gets, and never fails. The field is the number of octets so
/// far.
#[derive(Drop)]
pub struct Tally(pub usize);

impl Output for Tally {
    ghost contents = { λ _. None };

    ghost reliable = { true };

    fn put(&mut self, text: &str) -> io::Result<()> {
        self.0 = self.0.saturating_add(text.len());
        Ok(())
    }
}

#[test]
fn an_output_of_another_kind_serves(rt: HostRuntime) -> Result<(), Fail> {
    for (line, status, text) in ROWS {
        let words = words_of(rt.alloc(), line)?;
        let mut out = Tally(0);
        assert_eq!(rt; run(rt.alloc(), &words, &mut out), status, "at {line}");
        assert_eq!(rt; out.0, text.len(), "at {line}");
    }
    Ok(())
}
