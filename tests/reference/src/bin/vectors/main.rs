//! Writes recordings: for each function the requests that `crates/vectors` asks, with what the reference answers.
//!
//!     vectors DIRECTORY
//!
//! Every run writes the same bytes. tests/README.md has the layout, and what the requests are.

mod blocks;
mod frame;
mod inspections;
mod numbers;
mod pictures;
mod planes;
mod request;

use reference::calls::{self, Argument, Call};
use std::process::ExitCode;

struct Function {
    name: &'static str,
    /// How many arguments, the last ones, are outputs.
    outputs: usize,
    call: Call,
    requests: fn() -> Vec<Vec<Argument>>,
}

const fn function(
    name: &'static str,
    outputs: usize,
    call: Call,
    requests: fn() -> Vec<Vec<Argument>>,
) -> Function {
    Function {
        name,
        outputs,
        call,
        requests,
    }
}

const ALL: [Function; 20] = [
    function("fb_predict", 1, calls::predict, blocks::predict),
    function("fb_choose", 1, calls::choose, blocks::choose),
    function("fb_forward", 1, calls::forward, numbers::forward),
    function("fb_levels", 1, calls::levels, numbers::levels),
    function("fb_rebuild", 1, calls::rebuild, blocks::rebuild),
    function(
        "fb_rebuild_with_dc",
        1,
        calls::rebuild_with_dc,
        blocks::rebuild_with_dc,
    ),
    function(
        "fb_luma_dc_levels",
        1,
        calls::luma_dc_levels,
        numbers::luma_dc_levels,
    ),
    function(
        "fb_luma_dc_values",
        1,
        calls::luma_dc_values,
        numbers::luma_dc_values,
    ),
    function(
        "fb_chroma_dc_levels",
        1,
        calls::chroma_dc_levels,
        numbers::chroma_dc_levels,
    ),
    function(
        "fb_chroma_dc_values",
        1,
        calls::chroma_dc_values,
        numbers::chroma_dc_values,
    ),
    function(
        "fb_chroma_quantizer",
        0,
        calls::chroma_quantizer,
        numbers::chroma_quantizer,
    ),
    function("fb_code_block", 2, calls::code_block, blocks::code_block),
    function(
        "fb_promised_distance",
        0,
        calls::promised_distance,
        numbers::every_byte,
    ),
    function("fb_code_plane", 2, calls::code_plane, planes::code_plane),
    function("fb_read_head", 0, calls::read_head, planes::read_head),
    function(
        "fb_decode_plane",
        1,
        calls::decode_plane,
        planes::decode_plane,
    ),
    function(
        "fb_code_picture",
        4,
        calls::code_picture,
        pictures::code_picture,
    ),
    function(
        "fb_decode_picture",
        3,
        calls::decode_picture,
        pictures::decode_picture,
    ),
    function("fb_inspect", 0, calls::inspect, inspections::inspect),
    function("quantizer", 0, numbers::quantizer, numbers::every_byte),
];

fn main() -> ExitCode {
    let arguments: Vec<String> = std::env::args().skip(1).collect();
    let [directory] = arguments.as_slice() else {
        eprintln!("usage: vectors DIRECTORY");
        return ExitCode::from(2);
    };
    for function in ALL {
        let path = std::path::Path::new(directory).join(function.name);
        if let Err(error) = std::fs::write(&path, frame::recording(&function)) {
            eprintln!("{}: {error}", path.display());
            return ExitCode::FAILURE;
        }
    }
    ExitCode::SUCCESS
}
