//! What the reads saw: counts, and a hash of the first read. A hash of every read would cost more
//! than what is measured.
use crate::parsed::Parsed;
use std::ffi::OsString;
use std::fmt;
use std::os::unix::ffi::OsStrExt;

pub struct Seen {
    copies: u64,
    options: u64,
    values: u64,
    positionals: u64,
    bytes: u64,
    // FNV-1a of what the first read saw.
    hash: u64,
    hashes: bool,
}

impl Seen {
    pub fn new() -> Seen {
        Seen {
            copies: 0,
            options: 0,
            values: 0,
            positionals: 0,
            bytes: 0,
            hash: 0xcbf2_9ce4_8422_2325,
            hashes: true,
        }
    }

    /// Call this after the first read.
    pub fn stop_hashing(&mut self) {
        self.hashes = false;
    }

    pub fn copies(&mut self, words: &[OsString]) {
        self.copies = self.copies.wrapping_add(words.len() as u64);
    }

    /// The parts of a line.
    pub fn line(&mut self, line: &[Parsed]) {
        for parsed in line {
            match parsed {
                Parsed::Verbose => self.option(0),
                Parsed::All => self.option(1),
                Parsed::Brief => self.option(2),
                Parsed::Count => self.option(3),
                Parsed::Shout => self.option(4),
                Parsed::Number(value) => self.one(5, value),
                Parsed::Name(value) => self.one(6, value),
                Parsed::Output(value) => self.one(7, value),
                Parsed::Color(None) => self.option(8),
                Parsed::Color(Some(value)) => self.one(8, value),
                Parsed::Exclude(values) => self.several(9, values),
                Parsed::File(word) => self.positional(word.as_bytes()),
            }
        }
    }

    // The option with this index.
    fn option(&mut self, index: u64) {
        self.options = self.options.wrapping_add(1);
        self.text(b'o', &index.to_le_bytes());
    }

    // The option with this index, and its value.
    fn one(&mut self, index: u64, value: &OsString) {
        self.option(index);
        self.value(value.as_bytes());
    }

    // The option with this index, and its values.
    fn several(&mut self, index: u64, values: &[OsString]) {
        self.option(index);
        self.text(b'c', &(values.len() as u64).to_le_bytes());
        for value in values {
            self.value(value.as_bytes());
        }
    }

    fn value(&mut self, value: &[u8]) {
        self.values = self.values.wrapping_add(1);
        self.text(b'v', value);
    }

    fn positional(&mut self, word: &[u8]) {
        self.positionals = self.positionals.wrapping_add(1);
        self.text(b'p', word);
    }

    fn text(&mut self, kind: u8, bytes: &[u8]) {
        self.bytes = self.bytes.wrapping_add(bytes.len() as u64);
        if self.hashes {
            self.byte(kind);
            for byte in bytes {
                self.byte(*byte);
            }
        }
    }

    fn byte(&mut self, byte: u8) {
        self.hash = (self.hash ^ u64::from(byte)).wrapping_mul(0x0100_0000_01b3);
    }
}

impl fmt::Display for Seen {
    fn fmt(&self, f: &mut fmt::Formatter<'_>) -> fmt::Result {
        let Seen {
            copies,
            options,
            values,
            positionals,
            bytes,
            hash,
            ..
        } = self;
        writeln!(f, "copies {copies}")?;
        writeln!(f, "options {options}")?;
        writeln!(f, "values {values}")?;
        writeln!(f, "positionals {positionals}")?;
        writeln!(f, "bytes {bytes}")?;
        writeln!(f, "hash {hash:016x}")
    }
}
