//! How a command line program takes its words, reads, prints and ends.

use std::fs::File;
use std::io::{self, Read, Write};
use std::process::ExitCode;

/// Runs a command by its words, and ends with what it gives.
pub fn run(command: impl Fn(&[&str]) -> Result<(), String>) -> ExitCode {
    // A file's name may be in any octets; here it is shown, not opened.
    let words = std::env::args_os().skip(1);
    let words: Vec<String> = words
        .map(|word| word.to_string_lossy().into_owned())
        .collect();
    let words: Vec<&str> = words.iter().map(String::as_str).collect();
    ended(command(&words))
}

/// How a program ends. An error goes to standard error, with exit status 1.
pub fn ended(ran: Result<(), String>) -> ExitCode {
    match ran {
        Ok(()) => ExitCode::SUCCESS,
        Err(reason) => {
            eprintln!("{reason}");
            ExitCode::FAILURE
        }
    }
}

pub fn failed(error: io::Error) -> String {
    error.to_string()
}

/// Standard input, up to so many octets.
pub fn input(most: u64) -> Result<Vec<u8>, String> {
    octets(io::stdin().lock(), most).map_err(failed)
}

/// A file, up to so many octets.
pub fn file(path: &str, most: u64) -> Result<Vec<u8>, String> {
    let read = File::open(path).and_then(|file| octets(file, most));
    read.map_err(|error| format!("{path}: {error}"))
}

fn octets(source: impl Read, most: u64) -> io::Result<Vec<u8>> {
    let mut octets = Vec::new();
    source.take(most).read_to_end(&mut octets)?;
    Ok(octets)
}

/// Prints octets as they are.
pub fn output(octets: &[u8]) -> Result<(), String> {
    let mut out = io::stdout().lock();
    out.write_all(octets).map_err(failed)?;
    out.flush().map_err(failed)
}
