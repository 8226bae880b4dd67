//! `fleece sheet`: the quality sheet.

use crate::arguments::{Arguments, Form};
use crate::commands::read_once;
use crate::files::Source;
use crate::picture::{layout, Missing};
use crate::{Console, Failure, DONE};
use fleecebutton::{quality_sheet, Sheet};

pub const FORM: Form = Form { command: "sheet", switches: &[], operands: 2..=3 };

pub fn run(arguments: &Arguments, console: &mut Console) -> Result<u8, Failure> {
    read_once(arguments, &[0, 1, 2])?;
    let (one, other) = (Source::read(arguments.required(0)?, console)?, Source::read(arguments.required(1)?, console)?);
    let (original, rebuilt) = (one.plane()?, other.plane()?);
    if (original.width, original.height) != (rebuilt.width, rebuilt.height) {
        return Err(Failure::refused(&other.name, format!("{}, and {} has {}", rebuilt.size(), one.name, original.size())));
    }
    if !Missing::of(&original).nothing() {
        return Err(Failure::refused(&one.name, format!("{}, and width and height have to be multiples of 16", original.size())));
    }
    let layout = layout(&original);
    let (named, map) = match arguments.operand(2) {
        Some(name) => {
            let source = Source::read(name, console)?;
            (source.name, map(&source.bytes))
        }
        // without a map everything is present
        None => (one.name.clone(), vec![1; layout.macroblocks()]),
    };
    let sheet = quality_sheet(layout.width, layout.height, &original.samples, &rebuilt.samples, &map);
    let sheet = sheet.map_err(|why| Failure::refused(&named, why))?;
    console.answer(&text(sheet))?;
    Ok(DONE)
}

/// The bytes of a map: digits stand for their values, and white space between them for nothing. What is above 1 the library refuses.
fn map(file: &[u8]) -> Vec<u8> {
    let value = |byte: &u8| match byte {
        b'0'..=b'9' => Some(byte - b'0'),
        b' ' | b'\t' | b'\r' | b'\n' => None,
        other => Some(*other),
    };
    file.iter().filter_map(value).collect()
}

/// The shortest digits that are read back as the very same numbers.
fn text(sheet: Option<Sheet>) -> String {
    match sheet {
        None => String::from("no sheet\n"),
        Some(Sheet { mean_absolute_error, mean_squared_error, mean_signed_error }) => format!(
            "mean absolute error: {mean_absolute_error}\nmean squared error: {mean_squared_error}\nmean signed error: {mean_signed_error}\n"
        ),
    }
}
