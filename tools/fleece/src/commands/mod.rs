//! The commands.

mod code;
mod compare;
mod decode;
mod distance;
mod info;
mod inspect;
mod sheet;
mod version;

use crate::arguments::{Arguments, Form};
use crate::files::{is_standard, shown};
use crate::help;
use crate::{Console, Failure, DONE};
use std::ffi::OsString;

/// A command: what it takes, what it does, and what it says of itself.
struct Command {
    form: &'static Form,
    run: fn(&Arguments, &mut Console) -> Result<u8, Failure>,
    help: &'static str,
}

const COMMANDS: [Command; 8] = [
    Command { form: &code::FORM, run: code::run, help: help::CODE },
    Command { form: &decode::FORM, run: decode::run, help: help::DECODE },
    Command { form: &info::FORM, run: info::run, help: help::INFO },
    Command { form: &compare::FORM, run: compare::run, help: help::COMPARE },
    Command { form: &sheet::FORM, run: sheet::run, help: help::SHEET },
    Command { form: &inspect::FORM, run: inspect::run, help: help::INSPECT },
    Command { form: &distance::FORM, run: distance::run, help: help::DISTANCE },
    Command { form: &version::FORM, run: version::run, help: help::VERSION },
];

fn asks_for_help(word: &OsString) -> bool {
    word == "--help" || word == "-h"
}

/// Runs the command that the first word names with the others.
pub fn run(words: &[OsString], console: &mut Console) -> Result<u8, Failure> {
    let Some((name, words)) = words.split_first() else {
        return Err(Failure::Unusable(String::from("a command is missing (fleece --help)")));
    };
    if asks_for_help(name) || name == "help" {
        return console.answer(help::FLEECE).map(|()| DONE);
    }
    let Some(command) = COMMANDS.iter().find(|command| name == command.form.command) else {
        return Err(Failure::Unusable(format!("there is no command {} (fleece --help)", shown(name))));
    };
    if words.iter().take_while(|word| *word != "--").any(asks_for_help) {
        return console.answer(command.help).map(|()| DONE);
    }
    let arguments = Arguments::parse(command.form, words)?;
    (command.run)(&arguments, console)
}

/// Standard input can be read by one of two operands only.
fn read_once(arguments: &Arguments, numbers: &[usize]) -> Result<(), Failure> {
    match numbers.iter().filter_map(|number| arguments.operand(*number)).filter(|name| is_standard(name)).count() {
        0 | 1 => Ok(()),
        _ => Err(arguments.form.wrong("standard input can be read only once")),
    }
}
