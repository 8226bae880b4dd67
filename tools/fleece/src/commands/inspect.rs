//! `fleece inspect`: whether another maker's delivery is accepted.

use crate::arguments::{Arguments, Form};
use crate::commands::read_once;
use crate::files::Source;
use crate::{Console, Failure, DONE};
use fleecebutton::{inspect, read_head, SIDE};

pub const FORM: Form = Form { command: "inspect", switches: &[], operands: 2..=2 };

pub fn run(arguments: &Arguments, console: &mut Console) -> Result<u8, Failure> {
    read_once(arguments, &[0, 1])?;
    let (file, plane) = (Source::read(arguments.required(0)?, console)?, Source::read(arguments.required(1)?, console)?);
    let theirs = plane.plane()?;
    let layout = read_head(&file.bytes).map_err(|why| Failure::refused(&file.name, why))?;
    // the library knows the plane's length only, and not its shape
    let [width, height] = [layout.width, layout.height].map(|side| SIDE * side);
    if [theirs.width, theirs.height] != [width, height] {
        return Err(Failure::refused(&plane.name, format!("{}, and {} is of {width} x {height}", theirs.size(), file.name)));
    }
    inspect(&file.bytes, &theirs.samples).map_err(|why| {
        // a sample that differs is the delivered plane's, everything else the file's
        let name = if why.number() == fleecebutton::number::DIFFERS { &plane.name } else { &file.name };
        Failure::refused(name, why)
    })?;
    console.answer(&format!("accepted: {} is decoded to {}, {width} x {height} samples\n", file.name, plane.name))?;
    Ok(DONE)
}
