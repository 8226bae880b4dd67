//! The pictures that are coded: four contents, the same in every run.

use crate::{CHROMA, SAMPLES, SIDE};

/// Of a picture, in samples.
const WIDTH: usize = 16 * SIDE;
const PAPER: u8 = 232;
const INK: u8 = 24;

/// Draws a luma plane.
pub type Draw = fn() -> Vec<u8>;

/// The contents by their names.
pub const CONTENTS: [(&str, Draw); 4] = [
    ("dial", dial),
    ("mixed", mixed),
    ("text", text),
    ("noise", noise),
];

/// A gauge face that fills the picture.
fn dial() -> Vec<u8> {
    let face = Face::new(WIDTH);
    drawn(|x, y| face.sample(x, y))
}

/// A quarter each: a smaller gauge face, text, a slope of light, noise.
fn mixed() -> Vec<u8> {
    let face = Face::new(WIDTH / 2);
    let mut random = numbers();
    drawn(|x, y| match (x < WIDTH / 2, y < WIDTH / 2) {
        (true, true) => face.sample(x, y),
        (false, true) => letters(x, y),
        (true, false) => slope(x, y),
        (false, false) => random(256) as u8,
    })
}

/// A page of letters without a margin.
fn text() -> Vec<u8> {
    drawn(letters)
}

/// Every sample any, each as often.
fn noise() -> Vec<u8> {
    let mut random = numbers();
    drawn(|_, _| random(256) as u8)
}

fn drawn(mut sample: impl FnMut(usize, usize) -> u8) -> Vec<u8> {
    (0..SAMPLES)
        .map(|place| sample(place % WIDTH, place / WIDTH))
        .collect()
}

/// Light from the upper left: its levels are many samples wide, as no sensor adds noise.
fn slope(x: usize, y: usize) -> u8 {
    (240 - (2 * x + y) * 200 / (3 * WIDTH)) as u8
}

/// A gauge face on plain ground of one value: a ring, sixty marks of which every fifth is long, a needle and its hub. All is drawn in
/// thousandths of its radius, so that a smaller face is the same.
struct Face {
    /// In quarters of a sample, as are all lengths of a face.
    radius: i64,
    /// The directions of half of the marks, in thousandths, each with whether it is long; the others stand opposite.
    marks: Vec<((i64, i64), bool)>,
}

impl Face {
    /// In a square of so many samples.
    fn new(side: usize) -> Face {
        let mark = |number: u32| {
            let angle = f64::from(number) * std::f64::consts::PI / 30.0;
            let [along, across] = [angle.cos(), angle.sin()].map(|part| (1000.0 * part) as i64);
            ((along, across), number.is_multiple_of(5))
        };
        Face {
            radius: 2 * side as i64,
            marks: (0..30).map(mark).collect(),
        }
    }

    /// The mean of four places in the sample: an edge of one sample between ground and ink, as a lens has it.
    fn sample(&self, x: usize, y: usize) -> u8 {
        let [right, down] = [x, y].map(|along| 4 * along as i64 - self.radius);
        let corners = [(1, 1), (3, 1), (1, 3), (3, 3)];
        let inked = corners
            .into_iter()
            .filter(|(a, b)| self.ink(right + a, down + b))
            .count();
        ((inked * usize::from(INK) + (4 - inked) * usize::from(PAPER)) / 4) as u8
    }

    /// Whether there is ink, so far right of the middle and below it.
    fn ink(&self, right: i64, down: i64) -> bool {
        /// To the lower left, as a gauge stands at rest.
        const NEEDLE: (i64, i64) = (-600, 800);
        let distance = 1000 * (right * right + down * down).isqrt() / self.radius;
        // how far off a line through the middle, in thousandths of the radius
        let off = |(along, across): (i64, i64)| (right * across - down * along).abs() / self.radius;
        let on_mark = |long_only: bool| {
            let mut marks = self.marks.iter().filter(|(_, long)| *long || !long_only);
            marks.any(|(direction, long)| off(*direction) < if *long { 7 } else { 3 })
        };
        let ahead = right * NEEDLE.0 + down * NEEDLE.1 > 0;
        match distance {
            930..960 => true,
            860..910 => on_mark(false),
            810..860 => on_mark(true),
            40..780 => ahead && off(NEEDLE) < 8,
            0..40 => true,
            _ => false,
        }
    }
}

/// Letters in lines: each is some strokes of two samples in a box of its own, and some boxes are the gaps between words. The boxes are no
/// multiple of a block wide or high, so that strokes lie at every place of one.
fn letters(x: usize, y: usize) -> u8 {
    const BOX: (usize, usize) = (10, 15);
    /// Of a letter in its box; the rest is the gap to the next one and to the next line.
    const LETTER: (usize, usize) = (8, 13);
    let ((column, line), (x, y)) = ((x / BOX.0, y / BOX.1), (x % BOX.0, y % BOX.1));
    if x >= LETTER.0 || y >= LETTER.1 {
        return PAPER;
    }
    let middle = LETTER.1 / 2;
    let climb = y * LETTER.0 / LETTER.1;
    let strokes = [
        x < 2,
        x + 2 >= LETTER.0,
        y < 2,
        y == middle || y + 1 == middle,
        y + 2 >= LETTER.1,
        x.abs_diff(climb) < 2,
        (x + climb).abs_diff(LETTER.0 - 1) < 2,
    ];
    // which strokes a letter has is mixed of its place, so that no line repeats another
    let mixed = (line as u32 * 4096 + column as u32).wrapping_mul(0x9E37_79B9);
    let mixed = (mixed ^ mixed >> 15).wrapping_mul(0x85EB_CA6B) >> 16;
    let gap = mixed.is_multiple_of(6);
    let has = |stroke: usize| mixed >> (stroke + 4) & 1 == 1;
    let ink = strokes.iter().enumerate().any(|(n, on)| *on && has(n));
    if ink && !gap {
        INK
    } else {
        PAPER
    }
}

/// Cb and Cr for a luma plane: tints that follow its light, so that they are plain where it is plain and have edges where it has them.
pub fn chroma(luma: &[u8]) -> [Vec<u8>; 2] {
    let light = |place: usize, off: usize| {
        let (x, y) = (place % (WIDTH / 2), place / (WIDTH / 2));
        luma[(2 * y + off) * WIDTH + 2 * x + off]
    };
    [
        (0..CHROMA).map(|place| 64 + light(place, 0) / 2).collect(),
        (0..CHROMA).map(|place| 192 - light(place, 1) / 2).collect(),
    ]
}

/// Numbers below a count, the same in every run.
fn numbers() -> impl FnMut(usize) -> usize {
    let mut state = 0x5EEDu32;
    move |count| {
        state = state.wrapping_mul(1664525).wrapping_add(1013904223);
        ((state >> 16) as usize * count) >> 16
    }
}
