//! `fleece version`: which tool this is, and which library is in it.

use crate::arguments::{Arguments, Form};
use crate::{Console, Failure, DONE};
use std::env::consts::{ARCH, OS};

pub const FORM: Form = Form { command: "version", switches: &[], operands: 0..=0 };

pub fn run(_: &Arguments, console: &mut Console) -> Result<u8, Failure> {
    console.answer(&format!("fleece {} for {ARCH} {OS}\nlibrary: {}\n", env!("CARGO_PKG_VERSION"), fleecebutton::ORIGIN))?;
    Ok(DONE)
}
