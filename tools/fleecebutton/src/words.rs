//! The words of refusals that come of a call's arguments. Those that come of a file's content are made in `fault`.

use crate::layout::{Layout, MOST, SIDE};
use crate::refusal::{number, Words};

/// Of a refusal that a function is not known to send.
pub fn unknown(place: u64) -> Words {
    Words::at(format!("place {place}"), "this tool has no words for what the library refuses here")
}

/// A lent array with its length and the one that it should have.
pub struct Lent<'a> {
    /// With its article.
    pub name: &'a str,
    /// What its elements are called.
    pub elements: &'a str,
    pub length: usize,
    pub wanted: usize,
}

impl<'a> Lent<'a> {
    pub fn samples(name: &'a str, length: usize, wanted: usize) -> Lent<'a> {
        Lent { name, elements: "samples", length, wanted }
    }

    pub fn bytes(name: &'a str, length: usize, wanted: usize) -> Lent<'a> {
        Lent { name, elements: "bytes", length, wanted }
    }
}

/// LENGTH: the first array whose length is wrong.
pub fn length(layout: Layout, lent: &[Lent]) -> Words {
    let Layout { width, height, .. } = layout;
    match lent.iter().find(|array| array.length != array.wanted) {
        Some(Lent { name, elements, length, wanted }) => {
            Words::new(format!("{name} has {length} {elements}, and of a picture of {width} x {height} macroblocks it has {wanted}"))
        }
        None => unknown(0),
    }
}

/// SIZE: the dimensions, and then the rows of a slice.
pub fn size(said_by: &str, layout: Layout) -> Words {
    let Layout { width, height, rows } = layout;
    let fits = |side: usize| (1..=MOST).contains(&side);
    if fits(width) && fits(height) {
        return Words::new(format!(
            "{said_by} slices of {rows} rows of macroblocks, and of a picture of {height} rows they have 1 to {height}"
        ));
    }
    Words::new(format!(
        "{said_by} {width} x {height} macroblocks of {SIDE}x{SIDE}, and a side has 1 to {MOST} of them ({SIDE} to {} samples)",
        SIDE * MOST
    ))
}

/// QUANTIZER of a QP.
pub fn qp(qp: u8) -> Words {
    Words::new(wrong_qp(qp))
}

pub fn wrong_qp(qp: u8) -> String {
    format!("the QP is {qp}, and a QP is 0 to 51")
}

/// QUANTIZER of a QP and then of offsets, each with the name of its plane.
pub fn quantizer(qp: u8, offsets: &[(&str, i32)]) -> Words {
    if qp > 51 {
        return self::qp(qp);
    }
    match offsets.iter().find(|(_, offset)| !(-12..=12).contains(offset)) {
        Some((plane, offset)) => Words::new(wrong_offset(plane, *offset)),
        None => unknown(0),
    }
}

pub fn wrong_offset(plane: &str, offset: i32) -> String {
    format!("the offset{plane} is {offset}, and an offset is -12 to 12")
}

/// FLAGS of a flags byte.
pub fn flags(flags: u8) -> Words {
    Words::new(format!("the flags are {flags}, and flags are 0 to 15, a sum of 1 (A-D), 2 (I-L), 4 (M) and 8 (E-H)"))
}

/// FLAGS of a map.
pub fn map(layout: Layout, map: &[u8], place: u64) -> Words {
    let byte = element(map, place).map_or_else(String::new, |byte| format!("the byte is {byte}, and "));
    let wrong = format!("{byte}a byte of a map is 1 where the macroblock is present and 0 where it is absent");
    Words::at(format!("index {place} of the map, which is {}", layout.macroblock(place)), wrong)
}

/// MODE of a 4x4 block whose flags are legal.
pub fn mode(mode: u8, flags: u8) -> Words {
    Words::new(match needs(mode) {
        None => format!("the mode is {mode}, and modes of a 4x4 block are 0 to 8"),
        Some(needed) => format!("mode {mode} needs {}, and present by the flags {flags} is {}", present(needed), present(flags)),
    })
}

/// The flags of what a mode needs; none where there is no such mode.
fn needs(mode: u8) -> Option<u8> {
    match mode {
        2 => Some(0),
        0 | 3 | 7 => Some(1),
        1 | 8 => Some(2),
        4..=6 => Some(7),
        _ => None,
    }
}

/// What flags call present.
fn present(flags: u8) -> String {
    let names = ["A-D", "I-L", "M", "E-H"];
    let named: Vec<&str> = (0..4).filter(|bit| flags >> bit & 1 == 1).map(|bit| names[bit]).collect();
    match named.split_last() {
        None => String::from("nothing"),
        Some((last, [])) => String::from(*last),
        Some((last, others)) => format!("{} and {last}", others.join(", ")),
    }
}

/// An element of a lent array by the place of a refusal.
pub fn element<T: Copy>(lent: &[T], place: u64) -> Option<T> {
    lent.get(usize::try_from(place).ok()?).copied()
}

/// RESIDUAL and LEVEL: a number outside its range. The first of the list has index `from`.
pub fn outside(what: &str, numbers: &[i32], from: u64, place: u64, range: &str) -> Words {
    let value = place.checked_sub(from).and_then(|place| element(numbers, place));
    let value = value.map_or_else(String::new, |value| format!("it is {value}, and "));
    Words::at(format!("index {place}"), format!("{value}{what} is {range}"))
}

pub fn level(levels: &[i32], from: u64, place: u64) -> Words {
    outside("a level", levels, from, place, "-32768 to 32767")
}

pub fn residual(numbers: &[i32], place: u64) -> Words {
    outside("a residual", numbers, 0, place, "-255 to 255")
}

pub fn dc_coefficient(numbers: &[i32], place: u64) -> Words {
    outside("a DC coefficient", numbers, 0, place, "-4080 to 4080")
}

/// RANGE: what the number at an index comes to.
pub fn range(what: &str, qp: u8, place: u64) -> Words {
    Words::at(format!("index {place}"), format!("{what}, rescaled at QP {qp}, is outside -32768 to 32767"))
}

/// Of functions whose refusals are QUANTIZER of a QP and one more.
pub fn qp_or(sent: u8, qp: u8, place: u64, others: impl FnOnce() -> Words) -> Words {
    match sent {
        number::QUANTIZER => self::qp(qp),
        number::RESIDUAL | number::LEVEL | number::RANGE => others(),
        _ => unknown(place),
    }
}
