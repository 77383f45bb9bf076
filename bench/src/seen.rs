//! What the reads saw: counts, and a hash of the first read. A hash of every read would cost more
//! than what is measured.
use crate::items::Item;
use lexopt::Error;
use std::ffi::OsString;
use std::fmt;
use std::os::unix::ffi::OsStrExt;

pub struct Seen {
    copies: u64,
    shorts: u64,
    longs: u64,
    values: u64,
    positionals: u64,
    errors: u64,
    bytes: u64,
    // FNV-1a of what the first read saw.
    hash: u64,
    hashes: bool,
}

impl Seen {
    pub fn new() -> Seen {
        Seen {
            copies: 0,
            shorts: 0,
            longs: 0,
            values: 0,
            positionals: 0,
            errors: 0,
            bytes: 0,
            hash: 0xcbf2_9ce4_8422_2325,
            hashes: true,
        }
    }

    /// Call this after the first read.
    pub fn stop_hashing(&mut self) {
        self.hashes = false;
    }

    pub fn copies(&mut self, words: &[OsString]) {
        self.copies = self.copies.wrapping_add(words.len() as u64);
    }

    pub fn short(&mut self, option: char) {
        self.shorts = self.shorts.wrapping_add(1);
        self.text(b's', &u32::from(option).to_le_bytes());
    }

    pub fn long(&mut self, name: &str) {
        self.longs = self.longs.wrapping_add(1);
        self.text(b'l', name.as_bytes());
    }

    pub fn value(&mut self, value: &[u8]) {
        self.values = self.values.wrapping_add(1);
        self.text(b'v', value);
    }

    pub fn number(&mut self, number: u64) {
        self.values = self.values.wrapping_add(1);
        self.text(b'n', &number.to_le_bytes());
    }

    pub fn positional(&mut self, word: &[u8]) {
        self.positionals = self.positionals.wrapping_add(1);
        self.text(b'p', word);
    }

    pub fn items(&mut self, items: &[Item]) {
        for item in items {
            match item {
                Item::Short(option, value) => {
                    self.short(*option);
                    self.one(value);
                }
                Item::Long(name, value) => {
                    self.long(name);
                    self.one(value);
                }
                Item::ShortMany(option, values) => {
                    self.short(*option);
                    self.several(values);
                }
                Item::LongMany(name, values) => {
                    self.long(name);
                    self.several(values);
                }
                Item::Positional(word) => self.positional(word.as_bytes()),
            }
        }
    }

    // The value of an option, if any.
    fn one(&mut self, value: &Option<OsString>) {
        if let Some(value) = value {
            self.value(value.as_bytes());
        }
    }

    // The values of an option with several.
    fn several(&mut self, values: &[OsString]) {
        self.text(b'c', &(values.len() as u64).to_le_bytes());
        for value in values {
            self.value(value.as_bytes());
        }
    }

    /// Whether reading goes on after this error.
    pub fn error(&mut self, error: Error) -> bool {
        match error {
            Error::UnexpectedValue { option, value } => {
                self.text(b'u', option.as_bytes());
                self.text(b'=', value.as_bytes());
            }
            Error::MissingValue {
                option: Some(option),
            } => self.text(b'm', option.as_bytes()),
            _ => return false,
        }
        self.errors = self.errors.wrapping_add(1);
        true
    }

    fn text(&mut self, kind: u8, bytes: &[u8]) {
        self.bytes = self.bytes.wrapping_add(bytes.len() as u64);
        if self.hashes {
            self.byte(kind);
            for byte in bytes {
                self.byte(*byte);
            }
        }
    }

    fn byte(&mut self, byte: u8) {
        self.hash = (self.hash ^ u64::from(byte)).wrapping_mul(0x0100_0000_01b3);
    }
}

impl fmt::Display for Seen {
    fn fmt(&self, f: &mut fmt::Formatter<'_>) -> fmt::Result {
        let Seen {
            copies,
            shorts,
            longs,
            values,
            positionals,
            errors,
            bytes,
            hash,
            ..
        } = self;
        writeln!(f, "copies {copies}")?;
        writeln!(f, "shorts {shorts}")?;
        writeln!(f, "longs {longs}")?;
        writeln!(f, "values {values}")?;
        writeln!(f, "positionals {positionals}")?;
        writeln!(f, "errors {errors}")?;
        writeln!(f, "bytes {bytes}")?;
        writeln!(f, "hash {hash:016x}")
    }
}
