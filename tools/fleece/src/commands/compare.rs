//! `fleece compare`: whether two pictures are the same, and where they are not.

use crate::arguments::{Arguments, Form};
use crate::commands::read_once;
use crate::files::{self, is_standard, Output, Source};
use crate::netpbm::{self, Kind, Picture};
use crate::{Console, Failure, DONE, REFUSED};

pub const FORM: Form = Form { command: "compare", switches: &[], operands: 2..=3 };

/// How much brighter than it is the difference is shown.
const AMPLIFIED: u8 = 16;

pub fn run(arguments: &Arguments, console: &mut Console) -> Result<u8, Failure> {
    read_once(arguments, &[0, 1])?;
    let (one, other) = (Source::read(arguments.required(0)?, console)?, Source::read(arguments.required(1)?, console)?);
    let (first, second) = (one.picture()?, other.picture()?);
    if (first.kind, first.width, first.height) != (second.kind, second.width, second.height) {
        let about = |picture: &Picture| format!("a {} of {}", picture.kind.name(), picture.size());
        return Err(Failure::refused(&other.name, format!("{}, and {} is {}", about(&second), one.name, about(&first))));
    }
    let shown = arguments.operand(2);
    if let Some(name) = shown {
        let head = netpbm::head(first.kind, first.width, first.height);
        let pairs = first.samples.iter().zip(second.samples.iter());
        let samples: Vec<u8> = pairs.map(|(one, other)| one.abs_diff(*other).saturating_mul(AMPLIFIED)).collect();
        files::write(&[Output { name, parts: vec![&head, &samples] }], console)?;
    }
    let (line, status) = verdict(&first, &second);
    match shown {
        // standard output has the picture
        Some(name) if is_standard(name) => console.say(&line),
        _ => console.answer(&(line + "\n"))?,
    }
    Ok(status)
}

fn verdict(one: &Picture, other: &Picture) -> (String, u8) {
    let pairs = || one.samples.iter().zip(other.samples.iter());
    let Some(place) = pairs().position(|(one, other)| one != other) else {
        return (format!("equal: {}", one.size()), DONE);
    };
    let greatest = pairs().map(|(one, other)| one.abs_diff(*other)).max().unwrap_or_default();
    let count = pairs().filter(|(one, other)| one != other).count();
    let (pixel, depth) = (place / one.kind.depth(), one.kind.depth());
    let part = match one.kind {
        Kind::Grey => "",
        Kind::Colour => [", red", ", green", ", blue"][place % depth],
    };
    let (column, row) = (pixel % one.width, pixel / one.width);
    let (first, second, all) = (one.samples[place], other.samples[place], one.samples.len());
    let line = format!(
        "different: first at column {column}, row {row}{part} ({first} and {second}); greatest difference {greatest}; {count} of {all} samples differ"
    );
    (line, REFUSED)
}
