//! Times coder, decoder and inspection on pictures of 128x128 macroblocks, one thread. `run` beside this folder makes the libraries, builds
//! this and says what can be asked.

mod against;
mod arguments;
mod library;
mod peers;
mod pictures;
mod tables;
mod tasks;

use arguments::{Arguments, Asked};
use reference::record::Layout;
use reference::Picture;

/// In macroblocks: the largest picture.
const SIDE: usize = 128;
const SAMPLES: usize = 256 * SIDE * SIDE;
/// Of a chroma plane.
const CHROMA: usize = SAMPLES / 4;

/// A coder and a decoder of pictures of SIDE times SIDE macroblocks.
trait Codec {
    fn name(&self) -> &'static str;
    /// Whether it knows records of 16x16.
    fn both_kinds(&self) -> bool;
    /// Whether it knows slices.
    fn slices(&self) -> bool;
    /// Answers the bytes used of the file's area.
    fn code(
        &self,
        layout: Layout,
        qp: u8,
        plane: &[u8],
        area: &mut [u8],
        rebuilt: &mut [u8],
    ) -> usize;
    fn decode(&self, file: &[u8], plane: &mut [u8]);
    /// Whether it knows inspection.
    fn inspections(&self) -> bool;
    /// Of a delivery that is accepted.
    fn inspect(&self, file: &[u8], theirs: &[u8]);
    /// Whether it knows colour.
    fn colour(&self) -> bool;
    fn code_picture(&self, picture: &Picture, area: &mut [u8], rebuilt: [&mut [u8]; 3]) -> usize;
    fn decode_picture(&self, file: &[u8], planes: [&mut [u8]; 3]);
}

fn main() {
    let arguments = match Arguments::read(std::env::args().skip(1)) {
        Ok(arguments) => arguments,
        Err(why) => {
            eprintln!("bench: {why}");
            std::process::exit(2);
        }
    };
    match &arguments.asked {
        Asked::Reference => tables::beside_the_reference(&arguments),
        Asked::Against(program) => against::compare(&arguments, program),
        Asked::Peers(folder) => peers::compare(&arguments, folder),
        Asked::Rounds => against::answer_rounds(&arguments),
    }
}
