//! Results in the form in which they are compared: a letter, and after it bytes in hexadecimal
//! digits.
use lexopt::Error;
use std::ffi::OsString;
use std::os::unix::ffi::OsStrExt;

const DIGITS: [u8; 16] = *b"0123456789abcdef";

pub struct Answers {
    text: Vec<u8>,
}

impl Answers {
    pub fn new() -> Answers {
        Answers { text: Vec::new() }
    }

    /// The text so far.
    pub fn text(&self) -> &[u8] {
        self.text.as_slice()
    }

    /// A result without bytes, or the beginning of one; also the separator of results.
    pub fn letter(&mut self, letter: u8) {
        self.text.push(letter);
    }

    /// A result with these bytes.
    pub fn bytes(&mut self, letter: u8, bytes: &[u8]) {
        self.letter(letter);
        self.field(b':', bytes);
    }

    /// A word, if there is one.
    pub fn word(&mut self, word: Option<OsString>) {
        match word {
            Some(word) => self.bytes(b'V', word.as_bytes()),
            None => self.letter(b'-'),
        }
    }

    /// A result with all these words.
    pub fn words(&mut self, words: &[OsString]) {
        self.letter(b'W');
        for word in words {
            self.field(b':', word.as_bytes());
        }
    }

    /// The fields of an error, and its message.
    pub fn error(&mut self, error: &Error) {
        self.parts(error);
        let message = error.to_string();
        self.field(b'"', message.as_bytes());
    }

    // The fields of an error.
    fn parts(&mut self, error: &Error) {
        match error {
            Error::MissingValue { option: None } => self.letter(b'M'),
            Error::MissingValue {
                option: Some(option),
            } => self.bytes(b'M', option.as_bytes()),
            Error::UnexpectedOption(option) => self.bytes(b'O', option.as_bytes()),
            Error::UnexpectedArgument(value) => self.bytes(b'A', value.as_bytes()),
            Error::UnexpectedValue { option, value } => {
                self.bytes(b'U', option.as_bytes());
                self.field(b':', value.as_bytes());
            }
            Error::ParsingFailed { value, .. } => self.bytes(b'F', value.as_bytes()),
            Error::NonUnicodeValue(value) => self.bytes(b'N', value.as_bytes()),
            Error::Custom(_) => self.letter(b'C'),
        }
    }

    fn field(&mut self, mark: u8, bytes: &[u8]) {
        self.text.push(mark);
        for byte in bytes {
            self.text.push(DIGITS[usize::from(*byte >> 4)]);
            self.text.push(DIGITS[usize::from(*byte & 15)]);
        }
    }
}
