//! Tests of the program on arguments as the system passes them.
use super::USAGE;
use super::writers::Tally;
use der_tool_lib::run_tool;
use std::env::FillError;
use std::rt::Env;
use std::{env, io};

/// An environment of a process, without variables. The field holds the arguments, each as octets
/// that need not be text.
#[derive(Drop)]
struct Fixed<'a>(&'a [&'a [u8]]);

impl Env for Fixed<'_> {
    fn arg(&self, index: usize, buf: &mut [u8]) -> Result<usize, FillError> {
        let Some(octets) = self.0.get(index) else {
            return Err(FillError::NotPresent);
        };
        if buf.len() < octets.len() {
            return Err(FillError::TooLong);
        }
        buf[..octets.len()].copy_from_slice(octets);
        Ok(octets.len())
    }

    fn var(&self, _: &str, _: &mut [u8]) -> Result<usize, FillError> {
        Err(FillError::NotPresent)
    }

    fn var_at(&self, _: usize, _: &mut [u8]) -> Result<usize, FillError> {
        Err(FillError::NotPresent)
    }
}

const REFUSED: &str = "error: out of memory\n";

// The name of the program is not a word, each other argument is one, and an argument that is not
// text is not a word of a command.
#[test]
fn takes_arguments_as_words(rt: HostRuntime) {
    let lines = "tag: SEQUENCE\nconstructed: yes\nlength: 0\nrest: -\n";
    let rows: [(&[&[u8]], u8, &str); 10] = [
        (&[b"der_tool", b"head", b"3000"], 0, lines),
        (&[b"head", b"head", b"3000"], 0, lines),
        (&[b"der_tool", b"tlv", b"--ber", b"240109"], 0, "240109\n"),
        (&[b"der_tool", b"order", b"3000", b"1600"], 0, "greater\n"),
        (&[b"der_tool", b"head", b"3000", b"3000"], 2, USAGE),
        (&[b"der_tool", b"head", b"3000", b""], 2, USAGE),
        (&[b"der_tool", b"head"], 2, USAGE),
        (&[b"der_tool", b"head", b"30\xff0"], 2, USAGE),
        (&[b"der_tool"], 2, USAGE),
        (&[], 2, USAGE),
    ];
    for (arguments, status, text) in rows {
        let mut out = Vec::new(rt.alloc());
        let got = run_tool(
            rt.alloc(),
            env::args(&(Fixed(arguments), rt.alloc())),
            &mut out,
        );
        assert_eq!(rt; got, status, "at {text}");
        assert!(rt; out.as_slice() == text.as_bytes(), "at {text}");
    }
}

#[test]
fn arguments_for_which_no_memory_is_left_are_refused(rt: HostRuntime) {
    let mut out = Vec::new(rt.alloc());
    let given = Err(io::Error::from(io::ErrorKind::OutOfMemory));
    assert_eq!(rt; run_tool(rt.alloc(), given, &mut out), 1);
    assert!(rt; out.as_slice() == REFUSED.as_bytes());
}

// Every call prints something.
#[test]
fn an_output_that_never_fails_is_printed(rt: HostRuntime) {
    let rows: [(&[&[u8]], u8); 3] = [
        (&[b"der_tool", b"head", b"3000"], 0),
        (&[b"der_tool"], 2),
        (&[b"der_tool", b"\xff"], 2),
    ];
    for (arguments, status) in rows {
        let mut out = Tally(0);
        let given = env::args(&(Fixed(arguments), rt.alloc()));
        assert_eq!(rt; run_tool(rt.alloc(), given, &mut out), status);
        assert!(rt; out.0 > 0);
    }
}
