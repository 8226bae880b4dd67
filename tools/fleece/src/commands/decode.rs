//! `fleece decode`: a record file to its picture.

use crate::arguments::{Arguments, Form, Switch};
use crate::colour;
use crate::files::{self, Output, Source};
use crate::netpbm::{self, Kind};
use crate::{Console, Failure, DONE};
use fleecebutton::{decode_picture, decode_plane, DecodedPicture, Refusal, SIDE};

pub const FORM: Form = Form { command: "decode", switches: &[Switch { name: "--luma", value: false }], operands: 2..=2 };

pub fn run(arguments: &Arguments, console: &mut Console) -> Result<u8, Failure> {
    let source = Source::read(arguments.required(0)?, console)?;
    let decoded = decoded(&source.bytes, arguments.has("--luma")).map_err(|why| Failure::refused(&source.name, why))?;
    let [width, height] = [decoded.layout.width, decoded.layout.height].map(|side| SIDE * side);
    let (kind, samples) = match decoded.chroma {
        None => (Kind::Grey, decoded.luma),
        Some([cb, cr]) => (Kind::Colour, colour::to_samples(&decoded.luma, &cb, &cr, width)),
    };
    let head = netpbm::head(kind, width, height);
    files::write(&[Output { name: arguments.required(1)?, parts: vec![&head, &samples] }], console)?;
    Ok(DONE)
}

/// All planes, or luma alone, with the same tests.
fn decoded(file: &[u8], luma_alone: bool) -> Result<DecodedPicture, Refusal> {
    if luma_alone {
        let plane = decode_plane(file)?;
        return Ok(DecodedPicture { layout: plane.layout, luma: plane.samples, chroma: None });
    }
    decode_picture(file)
}
