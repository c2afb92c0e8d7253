//! Lines that print the results of calls.
use der::Error;
use std::fmt::{Debug, Display};
use std::io;

/// Prints a line with `call` and `value`. `call` is the name of a call, and `value` is its result,
/// which is printed in debug format.
pub fn print_value<T: Debug + Drop>(rt: &impl Print, call: &str, value: T) -> io::Result<()> {
    println!(rt; "{call}: {value:?}")
}

/// Prints a line with `call` and `value`. `call` is the name of a call, and `value` is its result,
/// which is printed as text.
pub fn print_text<T: Display + Drop>(rt: &impl Print, call: &str, value: T) -> io::Result<()> {
    println!(rt; "{call}: {value}")
}

/// Prints a line with `call` and `answer`. `call` is the name of a call, and `answer` is its
/// result: a value, which is printed in debug format, or an error, which is printed as text.
pub fn print_result<T: Debug + Drop>(
    rt: &impl Print,
    call: &str,
    answer: Result<T, Error>,
) -> io::Result<()> {
    match answer {
        Ok(value) => println!(rt; "{call}: {value:?}"),
        Err(error) => println!(rt; "{call}: {error}"),
    }
}
