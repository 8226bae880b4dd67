//! The words behind a command's name.

use crate::files::shown;
use crate::Failure;
use std::ffi::{OsStr, OsString};
use std::ops::RangeInclusive;
use std::str::FromStr;

/// A switch: its name, and whether a value follows it.
pub struct Switch {
    pub name: &'static str,
    pub value: bool,
}

/// What a command takes.
pub struct Form {
    pub command: &'static str,
    pub switches: &'static [Switch],
    pub operands: RangeInclusive<usize>,
}

impl Form {
    /// A failure of use, with where to read on.
    pub fn wrong(&self, why: impl std::fmt::Display) -> Failure {
        let command = self.command;
        Failure::Unusable(format!("{command}: {why} (fleece {command} --help)"))
    }
}

/// A command's words, taken apart.
pub struct Arguments {
    pub form: &'static Form,
    operands: Vec<OsString>,
    switches: Vec<(&'static str, Option<OsString>)>,
}

impl Arguments {
    /// Switches may stand before, between and behind operands; behind `--` everything is an operand, and so is a single `-`.
    pub fn parse(form: &'static Form, words: &[OsString]) -> Result<Arguments, Failure> {
        let mut parsed = Arguments { form, operands: Vec::new(), switches: Vec::new() };
        let mut words = words.iter();
        while let Some(word) = words.next() {
            if word == "--" {
                parsed.operands.extend(words.by_ref().cloned());
            } else if word != "-" && word.as_encoded_bytes().starts_with(b"-") {
                parsed.switch(word, &mut words)?;
            } else {
                parsed.operands.push(word.clone());
            }
        }
        parsed.counted()
    }

    fn switch<'a>(&mut self, word: &OsStr, rest: &mut impl Iterator<Item = &'a OsString>) -> Result<(), Failure> {
        let form = self.form;
        let Some(switch) = form.switches.iter().find(|switch| word == switch.name) else {
            return Err(form.wrong(format!("there is no switch {}", shown(word))));
        };
        if self.switches.iter().any(|(name, _)| *name == switch.name) {
            return Err(form.wrong(format!("{} stands twice", switch.name)));
        }
        let value = match switch.value {
            true => Some(rest.next().ok_or_else(|| form.wrong(format!("{} needs a value behind it", switch.name)))?.clone()),
            false => None,
        };
        self.switches.push((switch.name, value));
        Ok(())
    }

    fn counted(self) -> Result<Arguments, Failure> {
        let (least, most, given) = (self.form.operands.start(), self.form.operands.end(), self.operands.len());
        if self.form.operands.contains(&given) {
            return Ok(self);
        }
        let wanted = if least == most { least.to_string() } else { format!("{least} or {most}") };
        Err(self.form.wrong(format!("{given} operands are given, and it takes {wanted}")))
    }

    /// An operand by its number, from 0. The form says how many there are at least.
    pub fn operand(&self, number: usize) -> Option<&OsStr> {
        self.operands.get(number).map(OsString::as_os_str)
    }

    /// An operand that the form says is there.
    pub fn required(&self, number: usize) -> Result<&OsStr, Failure> {
        self.operand(number).ok_or_else(|| self.form.wrong("an operand is missing"))
    }

    /// Whether a switch is there.
    pub fn has(&self, name: &str) -> bool {
        self.switches.iter().any(|(given, _)| *given == name)
    }

    /// The number behind a switch, if that is there.
    pub fn number<T: FromStr>(&self, name: &str, what: &str) -> Result<Option<T>, Failure> {
        let given = self.switches.iter().find(|(given, _)| *given == name);
        match given.and_then(|(_, value)| value.as_ref()) {
            Some(value) => self.parsed(value, name, what).map(Some),
            None => Ok(None),
        }
    }

    /// A number by its digits.
    pub fn parsed<T: FromStr>(&self, value: &OsStr, name: &str, what: &str) -> Result<T, Failure> {
        let number = value.to_str().and_then(|text| text.parse().ok());
        number.ok_or_else(|| self.form.wrong(format!("{name} {} is not {what}", shown(value))))
    }
}
