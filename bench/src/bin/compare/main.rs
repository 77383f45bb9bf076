//! Makes calls and writes their results, so that these can be compared.
//! `crates/bench_compare/src/main.rt` does the same with this repository's port, and describes the
//! form of a case.

mod answers;

use answers::Answers;
use lexopt::prelude::ValueExt;
use lexopt::{Arg, Error, Parser, RawArgs};
use std::ffi::OsString;
use std::io::{self, Read, Write};
use std::os::unix::ffi::{OsStrExt, OsStringExt};

// The words that are wanted from a view.
const WANTED: [&[u8]; 3] = [b"a", b"-a", b"--"];

fn next(parser: &mut Parser, answers: &mut Answers) -> Result<(), Error> {
    match parser.next()? {
        Some(Arg::Short(option)) => answers.bytes(b'S', &u32::from(option).to_be_bytes()),
        Some(Arg::Long(name)) => answers.bytes(b'L', name.as_bytes()),
        Some(Arg::Value(word)) => answers.bytes(b'P', word.as_bytes()),
        None => answers.letter(b'-'),
    }
    Ok(())
}

fn unexpected(parser: &mut Parser, answers: &mut Answers) -> Result<(), Error> {
    match parser.next()? {
        Some(argument) => return Err(argument.unexpected()),
        None => answers.letter(b'-'),
    }
    Ok(())
}

fn number(number: Result<i32, Error>, answers: &mut Answers) {
    match number {
        Ok(number) => answers.bytes(b'I', &number.to_be_bytes()),
        Err(error) => answers.error(&error),
    }
}

// A value as a number, in two ways, and then as a text, from which a custom error is made.
fn converted(parser: &mut Parser, answers: &mut Answers) -> Result<(), Error> {
    let value = parser.value()?;
    number(value.parse(), answers);
    number(
        value.parse_with(|text| i32::from_str_radix(text, 16)),
        answers,
    );
    Err(Error::from(value.string()?))
}

fn values(parser: &mut Parser, count: usize, answers: &mut Answers) -> Result<(), Error> {
    let mut view = parser.values()?;
    for _ in 0..count {
        answers.word(view.next());
    }
    Ok(())
}

// Takes words from a view.
fn take(mut view: RawArgs<'_>, count: usize, answers: &mut Answers) {
    for _ in 0..count {
        answers.word(view.next());
    }
}

fn try_raw(parser: &mut Parser, count: usize, answers: &mut Answers) {
    match parser.try_raw_args() {
        Some(view) => take(view, count, answers),
        None => answers.letter(b'B'),
    }
}

// Looks at the unread words.
fn look(parser: &mut Parser, answers: &mut Answers) -> Result<(), Error> {
    let view = parser.raw_args()?;
    match view.peek() {
        Some(word) => answers.bytes(b'V', word.as_bytes()),
        None => answers.letter(b'-'),
    }
    answers.words(view.as_slice());
    Ok(())
}

// Takes the next word if it is the wanted one.
fn take_if(parser: &mut Parser, number: usize, answers: &mut Answers) -> Result<(), Error> {
    let wanted = *WANTED.get(number).unwrap_or(&WANTED[0]);
    let mut view = parser.raw_args()?;
    answers.word(view.next_if(|word| word.as_bytes() == wanted));
    Ok(())
}

fn bin_name(parser: &Parser, answers: &mut Answers) {
    match parser.bin_name() {
        Some(name) => answers.bytes(b'V', name.as_bytes()),
        None => answers.letter(b'-'),
    }
}

// The unread line: the pending value, and the words.
fn rest(parser: &mut Parser, answers: &mut Answers) {
    answers.word(parser.optional_value());
    match parser.try_raw_args() {
        Some(view) => answers.words(view.as_slice()),
        None => answers.letter(b'B'),
    }
}

// Makes a call.
fn make_call(
    parser: &mut Parser,
    call: u8,
    number: usize,
    answers: &mut Answers,
) -> Result<(), Error> {
    match call {
        b'n' => next(parser, answers)?,
        b'u' => unexpected(parser, answers)?,
        b'v' => answers.bytes(b'V', parser.value()?.as_bytes()),
        b'p' => converted(parser, answers)?,
        b'o' => answers.word(parser.optional_value()),
        b's' => values(parser, number, answers)?,
        b'r' => take(parser.raw_args()?, number, answers),
        b't' => try_raw(parser, number, answers),
        b'l' => look(parser, answers)?,
        b'i' => take_if(parser, number, answers)?,
        b'e' => parser.set_short_equals(number > 0),
        b'c' => *parser = parser.clone(),
        b'b' => bin_name(parser, answers),
        _ => return Err(Error::from("no call has this letter")),
    }
    Ok(())
}

// The value of a hexadecimal digit.
fn digit(byte: u8) -> u8 {
    match byte {
        b'0'..=b'9' => byte - b'0',
        b'a'..=b'f' => byte - b'a' + 10,
        _ => 0,
    }
}

// A word written in hexadecimal digits.
fn word(text: &str) -> OsString {
    let mut bytes = Vec::with_capacity(text.len() / 2);
    for pair in text.as_bytes().chunks(2) {
        if let [high, low] = pair {
            bytes.push(digit(*high) << 4 | digit(*low));
        }
    }
    OsString::from_vec(bytes)
}

fn words(text: &str) -> Vec<OsString> {
    let mut words = Vec::new();
    for text in text.split('.').skip(1) {
        words.push(word(text));
    }
    words
}

fn parser_of(constructor: &str, words: Vec<OsString>) -> Result<Parser, Error> {
    match constructor {
        "a" => Ok(Parser::from_args(words)),
        "i" => Ok(Parser::from_iter(words)),
        _ => Err(Error::from("no constructor has this letter")),
    }
}

fn answer(case: &str, answers: &mut Answers) -> Result<(), Box<dyn std::error::Error>> {
    let mut parts = case.split(' ');
    let (Some(constructor), Some(text), Some(calls)) = (parts.next(), parts.next(), parts.next())
    else {
        return Err("a case has three parts".into());
    };
    let mut parser = parser_of(constructor, words(text))?;
    for call in calls.as_bytes().chunks(2) {
        let [call, number] = call else {
            return Err("a call is a letter and a digit".into());
        };
        let number = usize::from(digit(*number));
        if let Err(error) = make_call(&mut parser, *call, number, answers) {
            answers.error(&error);
        }
        answers.letter(b' ');
    }
    rest(&mut parser, answers);
    answers.letter(b'\n');
    Ok(())
}

fn main() -> Result<(), Box<dyn std::error::Error>> {
    let mut input = String::new();
    io::stdin().read_to_string(&mut input)?;
    let mut answers = Answers::new();
    for case in input.lines() {
        answer(case, &mut answers)?;
    }
    io::stdout().write_all(answers.text())?;
    Ok(())
}
