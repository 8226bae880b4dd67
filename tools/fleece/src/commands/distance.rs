//! `fleece distance`: the promise of request 07.

use crate::arguments::{Arguments, Form};
use crate::{Console, Failure, DONE};
use fleecebutton::promised_distance;

pub const FORM: Form = Form { command: "distance", switches: &[], operands: 1..=1 };

pub fn run(arguments: &Arguments, console: &mut Console) -> Result<u8, Failure> {
    let qp: u8 = arguments.parsed(arguments.required(0)?, "QP", "a number from 0 to 51")?;
    let distance = promised_distance(qp).map_err(|why| Failure::refused("distance", why))?;
    console.answer(&format!(
        "{distance} (no sample of a 4x4 block that is coded at QP {qp} is rebuilt farther off its original; macroblocks that are predicted as \
         a whole and chroma have no promise)\n"
    ))?;
    Ok(DONE)
}
