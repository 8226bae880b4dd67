//! `fleece`: pictures of the bench to record files and back.
#![deny(warnings)]
#![forbid(unsafe_code)]

use fleece::Console;
use std::ffi::OsString;
use std::process::ExitCode;
use std::{env, io};

fn main() -> ExitCode {
    let arguments: Vec<OsString> = env::args_os().skip(1).collect();
    let mut console = Console { input: &mut io::stdin().lock(), output: &mut io::stdout().lock(), errors: &mut io::stderr().lock() };
    ExitCode::from(fleece::run(&arguments, &mut console))
}
