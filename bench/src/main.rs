//! Reads words many times, so that the cost of a read can be measured.
//! `crates/bench_port/src/main.rt` does the same with this repository's port, and describes the
//! arguments and standard input.

mod items;
mod seen;

use items::{Table, read_items};
use lexopt::{Arg, Error, Parser, ValueExt};
use seen::Seen;
use std::env;
use std::ffi::{OsStr, OsString};
use std::io::{self, Read};
use std::os::unix::ffi::OsStrExt;

// The text of the damaged long option in the workloads that has a value.
const DAMAGED_NAME: &str = "\u{fffd}\u{fffd}\u{fffd}size";

// What is done with the copies of the words.
#[derive(Clone, Copy)]
enum Work {
    Copy,
    Next,
    Collected,
    Fallible,
    Values,
    Raw,
    Parse,
    Items,
}

impl Work {
    fn of_name(name: &str) -> Option<Work> {
        match name {
            "copy" => Some(Work::Copy),
            "next" => Some(Work::Next),
            "collected" => Some(Work::Collected),
            "fallible" => Some(Work::Fallible),
            "values" => Some(Work::Values),
            "raw" => Some(Work::Raw),
            "parse" => Some(Work::Parse),
            "items" => Some(Work::Items),
            _ => None,
        }
    }
}

// A copy of these words.
fn copies(words: &[&[u8]]) -> Vec<OsString> {
    let mut copied = Vec::with_capacity(words.len());
    for word in words {
        copied.push(OsStr::from_bytes(word).to_os_string());
    }
    copied
}

// Takes the unread words.
fn read_raw(words: Vec<OsString>, seen: &mut Seen) -> bool {
    let mut parser = Parser::from_args(words);
    match parser.raw_args() {
        Ok(view) => {
            for word in view {
                seen.positional(word.as_bytes());
            }
            true
        }
        Err(error) => seen.error(error),
    }
}

// Parses the words as numbers.
fn read_numbers(words: &[OsString], seen: &mut Seen) -> bool {
    for word in words {
        match word.parse::<u64>() {
            Ok(number) => seen.number(number),
            Err(error) => return seen.error(error),
        }
    }
    true
}

// Reads the whole line. Only `-n` and `--name` take a value.
fn read_line(words: Vec<OsString>, seen: &mut Seen) -> bool {
    let mut parser = Parser::from_args(words);
    loop {
        match parser.next() {
            Ok(Some(Arg::Short(option))) => {
                seen.short(option);
                if option == 'n' {
                    match parser.value() {
                        Ok(value) => seen.value(value.as_bytes()),
                        Err(error) => {
                            if !seen.error(error) {
                                return false;
                            }
                        }
                    }
                }
            }
            Ok(Some(Arg::Long(name))) => {
                seen.long(name);
                if name == "name" {
                    match parser.value() {
                        Ok(value) => seen.value(value.as_bytes()),
                        Err(error) => {
                            if !seen.error(error) {
                                return false;
                            }
                        }
                    }
                }
            }
            Ok(Some(Arg::Value(word))) => seen.positional(word.as_bytes()),
            Ok(None) => return true,
            Err(error) => {
                if !seen.error(error) {
                    return false;
                }
            }
        }
    }
}

// Reads the whole line. Only `-n` takes values, as many as possible.
fn read_several(words: Vec<OsString>, seen: &mut Seen) -> bool {
    let mut parser = Parser::from_args(words);
    loop {
        match parser.next() {
            Ok(Some(Arg::Short(option))) => {
                seen.short(option);
                if option == 'n' {
                    match parser.values() {
                        Ok(view) => {
                            for value in view {
                                seen.value(value.as_bytes());
                            }
                        }
                        Err(error) => {
                            if !seen.error(error) {
                                return false;
                            }
                        }
                    }
                }
            }
            Ok(Some(Arg::Long(name))) => seen.long(name),
            Ok(Some(Arg::Value(word))) => seen.positional(word.as_bytes()),
            Ok(None) => return true,
            Err(error) => {
                if !seen.error(error) {
                    return false;
                }
            }
        }
    }
}

// Takes a value for the last option.
fn read_value(parser: &mut Parser, seen: &mut Seen) -> Result<(), Error> {
    let value = parser.value()?;
    seen.value(value.as_bytes());
    Ok(())
}

// Reads the line up to its first error. Only `-n` and `--name` take a value.
fn read_or_fail(words: Vec<OsString>, seen: &mut Seen) -> Result<(), Error> {
    let mut parser = Parser::from_args(words);
    loop {
        match parser.next()? {
            Some(Arg::Short(option)) => {
                seen.short(option);
                if option == 'n' {
                    read_value(&mut parser, seen)?;
                }
            }
            Some(Arg::Long(name)) => {
                seen.long(name);
                if name == "name" {
                    read_value(&mut parser, seen)?;
                }
            }
            Some(Arg::Value(word)) => seen.positional(word.as_bytes()),
            None => return Ok(()),
        }
    }
}

// The table for `read_items`: a short option and a long one for each kind.
fn options() -> Table {
    Table {
        shorts: vec!['n'],
        longs: vec!["name".to_owned()],
        optional_shorts: vec!['o'],
        optional_longs: vec![DAMAGED_NAME.to_owned()],
        several_shorts: vec!['x'],
        several_longs: vec!["exec".to_owned()],
    }
}

fn main() -> Result<(), Box<dyn std::error::Error>> {
    let mut args = env::args();
    let (Some(_program), Some(work), Some(times)) = (args.next(), args.next(), args.next()) else {
        return Err(
            "usage: bench copy|next|collected|fallible|values|raw|parse|items TIMES".into(),
        );
    };
    let work = Work::of_name(&work)
        .ok_or("the work is copy, next, collected, fallible, values, raw, parse or items")?;
    let times = times.parse::<u64>()?;

    let mut input = Vec::new();
    io::stdin().read_to_end(&mut input)?;
    let mut words: Vec<&[u8]> = input.split(|byte| *byte == 0).collect();
    let _after_the_last = words.pop();

    let table = options();
    let mut seen = Seen::new();
    for _ in 0..times {
        let copied = copies(&words);
        let goes_on = match work {
            Work::Copy => {
                seen.copies(&copied);
                true
            }
            // The Rust crate has the same constructor for both.
            Work::Next | Work::Collected => read_line(copied, &mut seen),
            Work::Fallible => match read_or_fail(copied, &mut seen) {
                Ok(()) => true,
                Err(error) => seen.error(error),
            },
            Work::Values => read_several(copied, &mut seen),
            Work::Raw => read_raw(copied, &mut seen),
            Work::Parse => read_numbers(&copied, &mut seen),
            Work::Items => match read_items(copied, true, &table) {
                Ok(items) => {
                    seen.items(&items);
                    true
                }
                Err(error) => seen.error(error),
            },
        };
        if !goes_on {
            return Err("an error that no workload should cause".into());
        }
        seen.stop_hashing();
    }
    print!("{seen}");
    Ok(())
}
