//! `fleece code`: a picture to its record file.

use crate::arguments::{Arguments, Form, Switch};
use crate::colour;
use crate::files::{self, Output, Source};
use crate::netpbm::{self, Kind, Picture};
use crate::picture::{layout, padded, Missing};
use crate::{Console, Failure, DONE};
use fleecebutton::{code_picture, code_plane, CodedPicture, Coding, Planes, Refusal};

pub const FORM: Form = Form {
    command: "code",
    switches: &[
        Switch { name: "-q", value: true },
        Switch { name: "--rows", value: true },
        Switch { name: "--pad", value: false },
        Switch { name: "--cb-offset", value: true },
        Switch { name: "--cr-offset", value: true },
    ],
    operands: 2..=3,
};

/// The QP where none is asked for.
const QP: u8 = 28;

pub fn run(arguments: &Arguments, console: &mut Console) -> Result<u8, Failure> {
    let source = Source::read(arguments.required(0)?, console)?;
    let picture = whole(arguments, &source, console)?;
    let mut coding = Coding { layout: layout(&picture), qp: QP, cb_offset: 0, cr_offset: 0 };
    asked(arguments, &mut coding)?;
    if picture.kind == Kind::Grey && (arguments.has("--cb-offset") || arguments.has("--cr-offset")) {
        return Err(arguments.form.wrong(format!("{} is a PGM, which has no chroma for an offset", source.name)));
    }
    let (file, rebuilt) = coded(coding, &picture).map_err(|why| Failure::refused(&source.name, why))?;
    let head = netpbm::head(picture.kind, picture.width, picture.height);
    let mut outputs = vec![Output { name: arguments.required(1)?, parts: vec![&file] }];
    let rebuilt = arguments.operand(2).map(|name| (name, rebuilt.samples(picture.width)));
    if let Some((name, samples)) = &rebuilt {
        outputs.push(Output { name, parts: vec![&head, samples] });
    }
    files::write(&outputs, console)?;
    Ok(DONE)
}

/// The picture, of whole macroblocks: padded if that is asked for, and refused if it would have to be.
fn whole<'a>(arguments: &Arguments, source: &'a Source, console: &mut Console) -> Result<Picture<'a>, Failure> {
    let picture = source.picture()?;
    let missing = Missing::of(&picture);
    let Missing { columns, rows } = missing;
    if arguments.has("--pad") {
        let padded = padded(picture);
        let repeated = format!("the last column is repeated {columns} times and the last row {rows} times");
        console.say(&format!("{}: padded to {}: {repeated}", source.name, padded.size()));
        return Ok(padded);
    }
    if missing.nothing() {
        return Ok(picture);
    }
    let wanted = format!("{} x {}", picture.width + columns, picture.height + rows);
    let why = format!(
        "{}, and width and height have to be multiples of 16; --pad would make it {wanted} by repeating the last column {columns} times \
         and the last row {rows} times",
        picture.size()
    );
    Err(Failure::refused(&source.name, why))
}

/// What the switches ask for.
fn asked(arguments: &Arguments, coding: &mut Coding) -> Result<(), Failure> {
    coding.qp = arguments.number("-q", "a QP, 0 to 51")?.unwrap_or(coding.qp);
    coding.layout.rows = arguments.number("--rows", "a number of rows of macroblocks")?.unwrap_or(coding.layout.rows);
    coding.cb_offset = arguments.number("--cb-offset", "an offset, -12 to 12")?.unwrap_or(coding.cb_offset);
    coding.cr_offset = arguments.number("--cr-offset", "an offset, -12 to 12")?.unwrap_or(coding.cr_offset);
    Ok(())
}

/// The planes that a decoder rebuilds.
enum Rebuilt {
    Plane(Vec<u8>),
    Planes(Vec<u8>, Vec<u8>, Vec<u8>),
}

impl Rebuilt {
    /// As a picture's samples; this is done only if they are asked for.
    fn samples(self, width: usize) -> Vec<u8> {
        match self {
            Rebuilt::Plane(samples) => samples,
            Rebuilt::Planes(luma, cb, cr) => colour::to_samples(&luma, &cb, &cr, width),
        }
    }
}

/// The record file, and what a decoder rebuilds.
fn coded(coding: Coding, picture: &Picture) -> Result<(Vec<u8>, Rebuilt), Refusal> {
    match picture.kind {
        Kind::Grey => {
            let coded = code_plane(coding.layout, coding.qp, &picture.samples)?;
            Ok((coded.file, Rebuilt::Plane(coded.rebuilt)))
        }
        Kind::Colour => {
            let [luma, cb, cr] = colour::to_planes(&picture.samples, picture.width, picture.height);
            let planes = Planes { luma: &luma, cb: &cb, cr: &cr };
            let CodedPicture { file, luma, cb, cr } = code_picture(coding, planes)?;
            Ok((file, Rebuilt::Planes(luma, cb, cr)))
        }
    }
}
