//! Arguments of the quality sheet: planes, maps, and an area that holds anything.

use crate::planes;
use crate::random::Random;
use crate::request::Argument::{self, Bytes, Doubles, Number};
use crate::sizes;

/// The bad inputs that must be among the cases, sizes in between, random ones, and two pictures of the largest size.
pub const CASES: usize = 200_000;

/// The sizes of the pictures that the bad inputs are made of.
const SIZES: [[usize; 2]; 2] = [[1, 1], [3, 2]];

/// For each size: every length one short and one over, a map byte of 2 and of 255 in its first and in its last place, and each
/// side of the size 0 and 129.
const BAD: usize = 8 + 4 + 4;

struct Call {
    size: [usize; 2],
    original: Vec<u8>,
    rebuilt: Vec<u8>,
    map: Vec<u8>,
    out: Vec<u64>,
}

pub fn quality_sheet(random: &mut Random, case: usize) -> Vec<Argument> {
    let call = match case {
        _ if case < SIZES.len() * BAD => bad(random, SIZES[case / BAD], case % BAD),
        _ if case < SIZES.len() * BAD + between() => sized(random, case - SIZES.len() * BAD),
        _ if case == CASES - 1 => largest(random, 0, 255),
        _ if case == CASES - 2 => largest(random, 255, 0),
        _ => anything(random),
    };
    let [width, height] = call.size.map(|side| Number(side as i64));
    vec![
        width,
        height,
        Bytes(call.original),
        Bytes(call.rebuilt),
        Bytes(call.map),
        Doubles(call.out),
    ]
}

/// A picture with all its macroblocks present.
fn good(random: &mut Random, size: [usize; 2]) -> Call {
    let [width, height] = size;
    Call {
        size,
        original: planes::picture(random, width, height),
        rebuilt: planes::picture(random, width, height),
        map: vec![1; width * height],
        out: (0..3).map(|_| random.next()).collect(),
    }
}

fn bad(random: &mut Random, size: [usize; 2], which: usize) -> Call {
    let mut call = good(random, size);
    let last = call.map.len() - 1;
    match which {
        0..8 => resize(&mut call, which / 2, [-1, 1][which % 2]),
        8 => call.map[0] = 2,
        9 => call.map[last] = 2,
        10 => call.map[0] = 255,
        11 => call.map[last] = 255,
        _ => call.size[which / 2 % 2] = [0, 129][which % 2],
    }
    call
}

/// Each of the sizes in between twice.
fn between() -> usize {
    2 * sizes::layouts().len()
}

/// Some macroblocks absent, but not the last one; then the last byte of the map is no flag.
fn sized(random: &mut Random, which: usize) -> Call {
    let layout = sizes::layouts()[which / 2];
    let mut call = good(random, [layout.width, layout.height]);
    call.map.fill_with(|| (random.byte() % 4).min(1));
    *call.map.last_mut().expect("it is no empty map") = [1, 2][which % 2];
    call
}

/// The largest picture, with the largest errors.
fn largest(random: &mut Random, original: u8, rebuilt: u8) -> Call {
    Call {
        original: vec![original; 256 * 128 * 128],
        rebuilt: vec![rebuilt; 256 * 128 * 128],
        map: vec![1; 128 * 128],
        size: [128, 128],
        out: (0..3).map(|_| random.next()).collect(),
    }
}

/// A small picture; some macroblocks absent, now and then all; up to two faults at once.
fn anything(random: &mut Random) -> Call {
    let size = match random.below(16) {
        0 => [0; 2].map(|_| random.between(1, 4) as usize),
        1 => random.of(&[[1, 3], [3, 1], [7, 1], [1, 7]]),
        _ => [1, 1],
    };
    let mut call = good(random, size);
    match random.below(8) {
        0 => call.map.fill(0),
        1 => call.rebuilt = call.original.clone(),
        _ => {}
    }
    if size != [1, 1] {
        call.map.fill_with(|| (random.byte() % 4).min(1));
    }
    for _ in 0..2 {
        match random.below(60) {
            0 => call.size[random.below(2)] = random.of(&[0, 129, 256, usize::MAX]),
            1 => call.size[random.below(2)] += 1,
            2 => resize(&mut call, random.below(4), random.of(&[-1, 1, 2])),
            3 if !call.map.is_empty() => {
                let place = random.below(call.map.len());
                call.map[place] = random.of(&[2, 3, 128, 255]);
            }
            _ => {}
        }
    }
    call
}

/// One slice longer or shorter.
fn resize(call: &mut Call, slice: usize, by: isize) {
    let longer = |length: usize| length.saturating_add_signed(by);
    match slice {
        0 => call.original.resize(longer(call.original.len()), 0x5A),
        1 => call.rebuilt.resize(longer(call.rebuilt.len()), 0x5A),
        2 => call.map.resize(longer(call.map.len()), 1),
        _ => call.out.resize(longer(call.out.len()), 0x5A),
    }
}
