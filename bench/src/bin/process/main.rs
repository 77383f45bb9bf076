//! Does one thing with its own words, so that the cost of a whole process can be measured.
//! `crates/bench_process/src/main.rt` does the same with this repository's port, and describes the
//! variable `PROCESS`.

#[path = "../options/parsed.rs"]
mod parsed;

use lexopt::{Arg, Error, Parser};
use parsed::Parsed;
use std::env;
use std::fmt;
use std::os::unix::ffi::OsStrExt;

#[derive(Default)]
struct Seen {
    options: u64,
    values: u64,
    positionals: u64,
    bytes: u64,
}

impl Seen {
    fn option(&mut self) {
        self.options += 1;
    }

    fn name(&mut self, name: &str) {
        self.option();
        self.bytes += name.len() as u64;
    }

    fn value(&mut self, value: &[u8]) {
        self.values += 1;
        self.bytes += value.len() as u64;
    }

    fn positional(&mut self, word: &[u8]) {
        self.positionals += 1;
        self.bytes += word.len() as u64;
    }

    fn parsed(&mut self, parsed: &Parsed) {
        match parsed {
            Parsed::Verbose | Parsed::All | Parsed::Brief | Parsed::Count | Parsed::Shout => {
                self.option();
            }
            Parsed::Number(value) | Parsed::Name(value) | Parsed::Output(value) => {
                self.option();
                self.value(value.as_bytes());
            }
            Parsed::Color(value) => {
                self.option();
                if let Some(value) = value {
                    self.value(value.as_bytes());
                }
            }
            Parsed::Exclude(values) => {
                self.option();
                for value in values {
                    self.value(value.as_bytes());
                }
            }
            Parsed::File(word) => self.positional(word.as_bytes()),
        }
    }
}

impl fmt::Display for Seen {
    fn fmt(&self, f: &mut fmt::Formatter<'_>) -> fmt::Result {
        writeln!(f, "options {}", self.options)?;
        writeln!(f, "values {}", self.values)?;
        writeln!(f, "positionals {}", self.positionals)?;
        writeln!(f, "bytes {}", self.bytes)
    }
}

// Collects the words, and reads none.
fn ask(seen: &mut Seen) {
    let words = env::args_os();
    for word in words {
        seen.positional(word.as_bytes());
    }
}

// Reads the words by calls of the parser.
fn read(seen: &mut Seen) -> Result<(), Error> {
    let mut parser = Parser::from_env();
    while let Some(argument) = parser.next()? {
        match argument {
            Arg::Short(option) => {
                seen.option();
                if option == 'n' {
                    let value = parser.value()?;
                    seen.value(value.as_bytes());
                }
            }
            Arg::Long(name) => {
                seen.name(name);
                if name == "name" {
                    let value = parser.value()?;
                    seen.value(value.as_bytes());
                }
            }
            Arg::Value(word) => seen.positional(word.as_bytes()),
        }
    }
    Ok(())
}

// Reads the words with ten options.
fn read_parsed(seen: &mut Seen) -> Result<(), Error> {
    for parsed in &parsed::read(Parser::from_env(), 0)? {
        seen.parsed(parsed);
    }
    Ok(())
}

fn main() -> Result<(), Box<dyn std::error::Error>> {
    let mut seen = Seen::default();
    match env::var("PROCESS").as_deref() {
        Ok("nothing") => {}
        Ok("ask") => ask(&mut seen),
        Ok("read") | Err(env::VarError::NotPresent) => read(&mut seen)?,
        Ok("parsed") => read_parsed(&mut seen)?,
        _ => return Err("PROCESS is nothing, ask, read or parsed".into()),
    }
    print!("{seen}");
    Ok(())
}
