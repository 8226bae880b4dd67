//! Arguments of the functions on one block: mostly in range, at its ends and just behind them, and any number at all.

use crate::random::Random;
use crate::request::Argument::{self, Bytes, Number, Numbers};

pub fn predict(random: &mut Random, case: usize) -> Vec<Argument> {
    let neighbours = samples(random, 13);
    // The first cases are all flags with all modes; then those that are mostly permitted.
    let (flags, mode) = match case {
        0..65536 => (case / 256, case % 256),
        _ => (random.below(16), random.below(9)),
    };
    vec![
        neighbours,
        Number(flags as i64),
        Number(mode as i64),
        held_bytes(random, 16),
    ]
}

pub fn choose(random: &mut Random, case: usize) -> Vec<Argument> {
    let [flags, neighbours, samples] = block(random, case);
    vec![neighbours, flags, samples, held_bytes(random, 16)]
}

pub fn forward(random: &mut Random, _: usize) -> Vec<Argument> {
    vec![numbers(random, 16, 255), held_numbers(random, 16)]
}

pub fn levels(random: &mut Random, _: usize) -> Vec<Argument> {
    vec![
        qp(random),
        numbers(random, 16, 255),
        held_numbers(random, 16),
    ]
}

pub fn rebuild(random: &mut Random, _: usize) -> Vec<Argument> {
    vec![
        qp(random),
        samples(random, 16),
        some_levels(random, 16),
        held_bytes(random, 16),
    ]
}

pub fn rebuild_with_dc(random: &mut Random, _: usize) -> Vec<Argument> {
    let prediction = samples(random, 16);
    let dc = match random.below(12) {
        0 => random.of(&[-32769, -32768, 32767, 32768]),
        1 => random.next() as i32,
        _ => random.between(-32768, 32767) >> random.below(16),
    };
    vec![
        qp(random),
        prediction,
        Number(dc.into()),
        some_levels(random, 15),
        held_bytes(random, 16),
    ]
}

pub fn dc_levels(random: &mut Random, count: usize) -> Vec<Argument> {
    vec![
        qp(random),
        numbers(random, count, 4080),
        held_numbers(random, count),
    ]
}

pub fn dc_values(random: &mut Random, count: usize) -> Vec<Argument> {
    vec![
        qp(random),
        some_levels(random, count),
        held_numbers(random, count),
    ]
}

/// All QPs with each offset of a wide span, and with numbers at the ends of 32 bits.
pub const CHROMA_QUANTIZERS: usize = 256 * 400;

pub fn chroma_quantizer(_: &mut Random, case: usize) -> Vec<Argument> {
    let offset = match case / 256 {
        offset @ 0..397 => offset as i64 - 198,
        397 => i32::MIN.into(),
        398 => i32::MAX.into(),
        _ => i64::from(i32::MIN) + 12,
    };
    vec![Number((case % 256) as i64), Number(offset)]
}

pub fn code_block(random: &mut Random, case: usize) -> Vec<Argument> {
    let [flags, neighbours, samples] = block(random, case);
    vec![
        qp(random),
        flags,
        neighbours,
        samples,
        held_numbers(random, 16),
        held_bytes(random, 16),
    ]
}

/// Flags, neighbours and samples: in the first cases samples that fit, or nearly.
fn block(random: &mut Random, case: usize) -> [Argument; 3] {
    match case {
        0..FITTING => fitting(random, case),
        _ => [flags(random), samples(random, 13), samples(random, 16)],
    }
}

/// All flags, with samples that vertical prediction is, that horizontal is and that both are; with one sample changed at each place, or none.
const FITTING: usize = 16 * 3 * 17;

fn fitting(random: &mut Random, case: usize) -> [Argument; 3] {
    let (flags, kind, changed) = (case % 16, case / 16 % 3, case / 48);
    let same = random.byte();
    let neighbours: Vec<u8> = (0..13)
        .map(|_| if kind == 2 { same } else { random.byte() })
        .collect();
    let sample = |place: usize| match kind {
        0 => neighbours[1 + place % 4],
        _ => neighbours[9 + place / 4],
    };
    let mut samples: Vec<u8> = (0..16).map(sample).collect();
    if let Some(sample) = samples.get_mut(changed) {
        *sample ^= 1;
    }
    [Number(flags as i64), Bytes(neighbours), Bytes(samples)]
}

fn qp(random: &mut Random) -> Argument {
    let any = random.byte().into();
    Number(match random.below(12) {
        0 => any,
        1 => random.of(&[0, 51, 52, 255]),
        _ => any % 52,
    })
}

fn flags(random: &mut Random) -> Argument {
    let any = random.byte().into();
    Number(match random.below(16) {
        0 => any,
        1 => random.of(&[0, 15, 16, 255]),
        _ => any % 16,
    })
}

/// A length that is the right one but for a few times.
fn length(random: &mut Random, right: usize) -> usize {
    match random.once_in(60) {
        true => random.of(&[right - 1, right + 1, 0, 2 * right]),
        false => right,
    }
}

/// Any samples, or only black and white, or nearly flat, or a ramp.
fn samples(random: &mut Random, right: usize) -> Argument {
    let length = length(random, right);
    let (kind, middle, step) = (random.below(5), random.byte(), random.byte() % 32);
    let sample = |place| match kind {
        0 => random.of(&[0, 255]),
        1 => middle.saturating_add(random.byte() % 4),
        2 => middle.wrapping_add(step.wrapping_mul(place as u8)),
        _ => random.byte(),
    };
    Bytes((0..length).map(sample).collect())
}

/// Numbers within a limit, at its ends, or close to 0; a few times one of them is just outside, or is any number at all.
fn numbers(random: &mut Random, right: usize, limit: i32) -> Argument {
    let length = length(random, right);
    let (kind, shift) = (random.below(4), random.below(8));
    let number = |_| match kind {
        0 => random.of(&[-limit, limit]),
        1 => random.between(-limit, limit),
        _ => random.between(-limit, limit) >> shift,
    };
    let mut numbers: Vec<i32> = (0..length).map(number).collect();
    spoil(random, &mut numbers, (-limit, limit));
    Numbers(numbers)
}

/// Levels of a random number of bits; a few times one of them is at an end of 16 bits, just outside, or any number at all.
fn some_levels(random: &mut Random, right: usize) -> Argument {
    let length = length(random, right);
    let shift = random.below(16);
    let mut levels: Vec<i32> = (0..length)
        .map(|_| random.between(-32768, 32767) >> shift)
        .collect();
    spoil(random, &mut levels, (-32768, 32767));
    Numbers(levels)
}

fn spoil(random: &mut Random, numbers: &mut [i32], (low, high): (i32, i32)) {
    if numbers.is_empty() || !random.once_in(6) {
        return;
    }
    let any = random.next() as i32;
    let place = random.below(numbers.len());
    numbers[place] = random.of(&[low, high, low - 1, high + 1, i32::MIN, i32::MAX, any]);
}

/// An output as it is before the call: a refusal must leave these very bytes.
fn held_bytes(random: &mut Random, right: usize) -> Argument {
    let length = length(random, right);
    Bytes((0..length).map(|_| random.byte()).collect())
}

fn held_numbers(random: &mut Random, right: usize) -> Argument {
    let length = length(random, right);
    Numbers((0..length).map(|_| random.next() as i32).collect())
}
