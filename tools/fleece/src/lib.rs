//! The command `fleece` as a library, so that tests can run it in their own process.
//!
//! Exit status: 0 done; 1 refused, also where `compare` finds a difference; 2 wrong use, or a file that cannot be read or written. Messages
//! go to standard error, one line each, and name the file and the place. Nothing panics, whatever the input.
#![deny(warnings)]
#![forbid(unsafe_code)]

pub mod arguments;
pub mod colour;
mod commands;
pub mod files;
mod help;
pub mod netpbm;
pub mod picture;

use std::ffi::OsString;
use std::io::{self, Read, Write};

/// Where the command reads and writes what is not in a file.
pub struct Console<'a> {
    pub input: &'a mut dyn Read,
    pub output: &'a mut dyn Write,
    pub errors: &'a mut dyn Write,
}

impl Console<'_> {
    /// A line for the person at the bench. If it cannot be written there is nobody to tell.
    pub fn say(&mut self, line: &str) {
        let _ = writeln!(self.errors, "fleece: {line}");
    }

    /// What was asked for, on standard output.
    pub fn answer(&mut self, text: &str) -> Result<(), Failure> {
        self.write(&[text.as_bytes()]).map_err(|error| Failure::Unusable(format!("standard output: {error}")))
    }

    /// These bytes, one part behind the other, to standard output, all of them.
    pub(crate) fn write(&mut self, parts: &[&[u8]]) -> io::Result<()> {
        for part in parts {
            self.output.write_all(part)?;
        }
        self.output.flush()
    }
}

/// Why a command was not done: one line, without its end.
#[derive(Clone, Debug, PartialEq, Eq)]
pub enum Failure {
    /// What a file holds is refused.
    Refused(String),
    /// Wrong use, or a file cannot be read or written.
    Unusable(String),
}

impl Failure {
    /// Of a file.
    pub fn refused(file: &str, why: impl std::fmt::Display) -> Failure {
        Failure::Refused(format!("{file}: {why}"))
    }
}

/// The exit status of a command that has done what was asked.
pub const DONE: u8 = 0;
/// And of one that has refused it.
pub const REFUSED: u8 = 1;
/// And of one that could not be used so.
pub const UNUSABLE: u8 = 2;

/// Runs the command with these words behind its name, and answers the exit status.
pub fn run(arguments: &[OsString], console: &mut Console) -> u8 {
    let (line, status) = match commands::run(arguments, console) {
        Ok(status) => return status,
        Err(Failure::Refused(line)) => (line, REFUSED),
        Err(Failure::Unusable(line)) => (line, UNUSABLE),
    };
    console.say(&line);
    status
}
