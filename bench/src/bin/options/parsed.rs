//! Reads a line with ten options over the Rust crate, by a `match` over their names.

use lexopt::prelude::*;
use lexopt::{Error, Parser};
use std::ffi::OsString;

/// A part of a line.
pub enum Parsed {
    Verbose,
    All,
    Brief,
    Count,
    Shout,
    Number(OsString),
    Name(OsString),
    Output(OsString),
    Color(Option<OsString>),
    Exclude(Vec<OsString>),
    File(OsString),
}

/// Reads a whole line. Returns the first error: an unknown option, a missing value, or a value of a
/// flag. The list has this much room at first.
pub fn read(mut parser: Parser, room: usize) -> Result<Vec<Parsed>, Error> {
    let mut line = Vec::with_capacity(room);
    while let Some(argument) = parser.next()? {
        line.push(match argument {
            Short('v') | Long("verbose") => Parsed::Verbose,
            Short('a') => Parsed::All,
            Short('b') => Parsed::Brief,
            Short('c') => Parsed::Count,
            Long("shout") => Parsed::Shout,
            Short('n') => Parsed::Number(parser.value()?),
            Long("name") => Parsed::Name(parser.value()?),
            Short('o') | Long("output") => Parsed::Output(parser.value()?),
            Long("color") => Parsed::Color(parser.optional_value()),
            Short('x') | Long("exclude") => Parsed::Exclude(parser.values()?.collect()),
            Value(word) => Parsed::File(word),
            Short(_) | Long(_) => return Err(argument.unexpected()),
        });
    }
    Ok(line)
}
