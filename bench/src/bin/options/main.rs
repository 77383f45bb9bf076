//! Reads words with ten options many times, so that the cost of a read can be measured.
//! `crates/bench_options/src/main.rt` does the same with the declared options of this repository,
//! and describes the arguments and standard input.

mod parsed;
mod seen;

use lexopt::Parser;
use seen::Seen;
use std::env;
use std::ffi::{OsStr, OsString};
use std::io::{self, Read};
use std::os::unix::ffi::OsStrExt;

// What is done each time.
#[derive(Clone, Copy)]
enum Work {
    Copy,
    Parsed,
}

impl Work {
    fn of_name(name: &str) -> Option<Work> {
        match name {
            "copy" => Some(Work::Copy),
            "parsed" => Some(Work::Parsed),
            _ => None,
        }
    }
}

// A copy of these words.
fn copies(words: &[&[u8]]) -> Vec<OsString> {
    let mut copied = Vec::with_capacity(words.len());
    for word in words {
        copied.push(OsStr::from_bytes(word).to_os_string());
    }
    copied
}

// Reads a line to its end.
fn read_line(words: Vec<OsString>, seen: &mut Seen) -> bool {
    // Room for a typical line. The list of a longer line grows.
    let room = words.len().min(16);
    match parsed::read(Parser::from_args(words), room) {
        Ok(line) => {
            seen.line(&line);
            true
        }
        Err(_) => false,
    }
}

fn main() -> Result<(), Box<dyn std::error::Error>> {
    let mut args = env::args();
    let (Some(_program), Some(work), Some(times)) = (args.next(), args.next(), args.next()) else {
        return Err("usage: options copy|parsed TIMES".into());
    };
    let work = Work::of_name(&work).ok_or("the work is copy or parsed")?;
    let times = times.parse::<u64>()?;

    let mut input = Vec::new();
    io::stdin().read_to_end(&mut input)?;
    let mut words: Vec<&[u8]> = input.split(|byte| *byte == 0).collect();
    let _after_the_last = words.pop();

    let mut seen = Seen::new();
    for _ in 0..times {
        let copied = copies(&words);
        let goes_on = match work {
            Work::Copy => {
                seen.copies(&copied);
                true
            }
            Work::Parsed => read_line(copied, &mut seen),
        };
        if !goes_on {
            return Err("an error that no workload should cause".into());
        }
        seen.stop_hashing();
    }
    print!("{seen}");
    Ok(())
}
