//! Reads a whole line by a table of options, over the Rust crate, as `read_items` of this
//! repository does.

use lexopt::{Arg, Error, Parser};
use std::ffi::OsString;

/// The options that have values, by how many they have. Any other option has none. Names are
/// without their dashes.
pub struct Table {
    /// Short options with one value, always.
    pub shorts: Vec<char>,
    /// Long options with one value, always.
    pub longs: Vec<String>,
    /// Short options with one value or none.
    pub optional_shorts: Vec<char>,
    /// Long options with one value or none.
    pub optional_longs: Vec<String>,
    /// Short options with several values, at least one.
    pub several_shorts: Vec<char>,
    /// Long options with several values, at least one.
    pub several_longs: Vec<String>,
}

/// An item of a line.
pub enum Item {
    Short(char, Option<OsString>),
    Long(String, Option<OsString>),
    ShortMany(char, Vec<OsString>),
    LongMany(String, Vec<OsString>),
    Positional(OsString),
}

/// Reads a whole line by a table. After each option in the table its values are read; any other
/// option is a flag.
pub fn read_items(
    words: Vec<OsString>,
    short_equals: bool,
    table: &Table,
) -> Result<Vec<Item>, Error> {
    // Room for a typical line. The list of a longer line grows.
    let mut items = Vec::with_capacity(words.len().min(16));
    let mut parser = Parser::from_args(words);
    parser.set_short_equals(short_equals);
    while let Some(argument) = parser.next()? {
        let item = match argument {
            Arg::Short(option) => read_short(&mut parser, option, table)?,
            Arg::Long(name) => {
                let name = name.to_owned();
                read_long(&mut parser, name, table)?
            }
            Arg::Value(word) => Item::Positional(word),
        };
        items.push(item);
    }
    Ok(items)
}

// Reads the values of a short option.
fn read_short(parser: &mut Parser, option: char, table: &Table) -> Result<Item, Error> {
    if table.shorts.contains(&option) {
        Ok(Item::Short(option, Some(parser.value()?)))
    } else if table.optional_shorts.contains(&option) {
        Ok(Item::Short(option, parser.optional_value()))
    } else if table.several_shorts.contains(&option) {
        Ok(Item::ShortMany(option, parser.values()?.collect()))
    } else {
        Ok(Item::Short(option, None))
    }
}

// Reads the values of a long option.
fn read_long(parser: &mut Parser, name: String, table: &Table) -> Result<Item, Error> {
    if table.longs.contains(&name) {
        Ok(Item::Long(name, Some(parser.value()?)))
    } else if table.optional_longs.contains(&name) {
        Ok(Item::Long(name, parser.optional_value()))
    } else if table.several_longs.contains(&name) {
        Ok(Item::LongMany(name, parser.values()?.collect()))
    } else {
        Ok(Item::Long(name, None))
    }
}
