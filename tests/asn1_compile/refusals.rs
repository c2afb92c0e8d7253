//! What the compiler answers for a module.
use crate::checks::same_at;
use asn1_check::{External, checked_module};
use asn1_output::{Compiled, OutputFile, compile, read_external};
use asn1_syntax::{Failure, Position};
use std::alloc::{AllocError, Global};
use std::process::Abort;

/// Line, column and text of what is refused in a module without imports; `None` if nothing is.
pub fn refusal(alloc: Global, text: &str) -> Option<(usize, usize, &str)> {
    match checked_module(alloc, &Vec::new(alloc), text) {
        Ok(_) => None,
        Err(failure) => Some(place_of(text, failure)),
    }
}

/// Line, column and text of what is refused in a module.
pub fn place_of<'a>(text: &'a str, failure: Failure<'a>) -> (usize, usize, &'a str) {
    match failure {
        Failure::Refused(refusal) | Failure::Unsupported(refusal) => {
            let position = Position::of(text.as_bytes(), refusal.offset);
            (position.line, position.column, refusal.found)
        }
        Failure::OutOfMemory => (0, 0, "memory"),
    }
}

/// What other modules may import from the modules with these texts, each of which may import from
/// those before it. The first one is that of the crate `one`, and the second one of `two`.
pub fn externals<'a>(
    alloc: Global,
    texts: &[&'a str],
) -> Result<Vec<External<'a>>, Failure<'a>> {
    let mut externals = Vec::new(alloc);
    for (text, krate) in texts.iter().zip(["one", "two"]) {
        let external = read_external(alloc, &externals, text, krate)?;
        externals.push(external)?;
    }
    Ok(externals)
}

/// The files of a module, or the line, column and text of what is refused in it.
pub fn compiled<'a>(
    alloc: Global,
    externals: &Vec<External<'a>>,
    text: &'a str,
) -> Result<Vec<OutputFile>, (usize, usize, &'a str)> {
    match compile(alloc, externals, text, "own", &[]) {
        Ok(Compiled { files, .. }) => Ok(files),
        Err(failure) => Err(place_of(text, failure)),
    }
}

/// Checks that a file with this path has this text in it.
pub fn has_text(rt: &impl Abort, files: &Vec<OutputFile>, path: &str, text: &str) {
    let is_there = files
        .iter()
        .any(|file| file.path.as_str() == path && file.text.as_str().contains(text));
    same_at(rt, text, is_there, true);
}

/// A module with these assignments, whose first line is the second one of the module.
pub fn module(alloc: Global, tags: &str, body: &str) -> Result<String, AllocError> {
    format!(in alloc; "M DEFINITIONS {tags} TAGS ::= BEGIN\n{body}\nEND\n")
}

/// Checks that a module with these assignments is refused at this place.
pub fn refuses(
    rt: &impl Abort,
    alloc: Global,
    body: &str,
    place: (usize, usize, &str),
) -> Result<(), AllocError> {
    let text = module(alloc, "EXPLICIT", body)?;
    same_at(rt, body, refusal(alloc, &text), Some(place));
    Ok(())
}

/// Checks that a module with these assignments is accepted.
pub fn accepts(rt: &impl Abort, alloc: Global, body: &str) -> Result<(), AllocError> {
    let text = module(alloc, "EXPLICIT", body)?;
    same_at(rt, body, refusal(alloc, &text), None);
    Ok(())
}
