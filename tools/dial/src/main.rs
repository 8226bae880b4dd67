//! Draws the dial of a gauge as a PGM: `dial SIDE [OUT.pgm]`, SIDE a multiple of 16 from 16 to 2048; without a file to standard output.
//!
//! A ring, fifty-one ticks over 270 degrees, every fifth of them long, and a needle on plain ground, their edges smoothed over a sample's
//! width. Only sums, products, quotients and roots of doubles are taken, which are the same on every machine, so every run draws the same.
#![deny(warnings)]
#![forbid(unsafe_code)]

use std::ffi::OsString;
use std::io::{self, Write};
use std::process::ExitCode;
use std::{env, fs};

/// Light of the ground and of the ink.
const GROUND: f64 = 206.0;
const INK: f64 = 34.0;

/// The direction of the first tick, 135 degrees from the right by the clock, and the turn to the next, 5.4 degrees: cosine and sine.
const FIRST: (f64, f64) = (-0.707_106_781_186_547_5, 0.707_106_781_186_547_5);
const TURN: (f64, f64) = (0.995_561_964_603_080_1, 0.094_108_313_318_514_31);
const TICKS: usize = 51;
/// The needle points to this one, and a little beyond.
const NEEDLE: usize = 33;
const BEYOND: (f64, f64) = (0.999_390_827_019_095_7, 0.034_899_496_702_500_97);

fn main() -> ExitCode {
    let words: Vec<OsString> = env::args_os().skip(1).collect();
    let side = words.first().and_then(|word| word.to_str()?.parse().ok());
    let side = side.filter(|side: &usize| (16..=2048).contains(side) && side.next_multiple_of(16) == *side);
    let (Some(side), true) = (side, words.len() <= 2) else {
        let _ = writeln!(io::stderr(), "dial: dial SIDE [OUT.pgm], SIDE a multiple of 16 from 16 to 2048");
        return ExitCode::from(2);
    };
    let mut picture = format!("P5\n{side} {side}\n255\n").into_bytes();
    picture.extend(dial(side));
    let written = match words.get(1) {
        Some(name) => fs::write(name, picture),
        None => io::stdout().write_all(&picture).and_then(|()| io::stdout().flush()),
    };
    match written {
        Ok(()) => ExitCode::SUCCESS,
        Err(error) => {
            let _ = writeln!(io::stderr(), "dial: {error}");
            ExitCode::from(2)
        }
    }
}

/// The samples, by rows.
fn dial(side: usize) -> Vec<u8> {
    let ticks = directions();
    let needle = turned(ticks[NEEDLE], BEYOND);
    let middle = side as f64 / 2.0;
    let place = |number: usize| (number as f64 + 0.5 - middle) / middle;
    let sharpness = middle;
    let sample = |index: usize| {
        let point = (place(index % side), place(index / side));
        let covered = covered(point, &ticks, needle, sharpness);
        (GROUND + (INK - GROUND) * covered + 0.5) as u8
    };
    (0..side * side).map(sample).collect()
}

fn directions() -> Vec<(f64, f64)> {
    let mut direction = FIRST;
    let mut all = Vec::with_capacity(TICKS);
    for _ in 0..TICKS {
        all.push(direction);
        direction = turned(direction, TURN);
    }
    all
}

fn turned(direction: (f64, f64), turn: (f64, f64)) -> (f64, f64) {
    (direction.0 * turn.0 - direction.1 * turn.1, direction.0 * turn.1 + direction.1 * turn.0)
}

/// How much of a sample is ink, 0 to 1. The dial's radius is 1, and `sharpness` samples are as long.
fn covered(point: (f64, f64), ticks: &[(f64, f64)], needle: (f64, f64), sharpness: f64) -> f64 {
    let radius = (point.0 * point.0 + point.1 * point.1).sqrt();
    let ring = stroke((radius - 0.92).abs(), 0.012, sharpness);
    let hub = stroke(radius, 0.06, sharpness);
    // far from the ticks' circle none of them is near
    let tick = match (0.70..0.92).contains(&radius) {
        true => ticks.iter().enumerate().map(|(number, tick)| of_tick(point, number, *tick, sharpness)).fold(0.0, f64::max),
        false => 0.0,
    };
    let needle = stroke(beside(point, needle, -0.14, 0.72), 0.014, sharpness);
    ring.max(hub).max(tick).max(needle)
}

/// Of one tick: every fifth is longer and broader.
fn of_tick(point: (f64, f64), number: usize, tick: (f64, f64), sharpness: f64) -> f64 {
    let (inner, half) = match number % 5 {
        0 => (0.74, 0.009),
        _ => (0.81, 0.005),
    };
    stroke(beside(point, tick, inner, 0.88), half, sharpness)
}

/// The distance of a point from the part of a line through the middle between two places on it.
fn beside(point: (f64, f64), direction: (f64, f64), from: f64, to: f64) -> f64 {
    let along = (point.0 * direction.0 + point.1 * direction.1).clamp(from, to);
    let (right, down) = (point.0 - along * direction.0, point.1 - along * direction.1);
    (right * right + down * down).sqrt()
}

/// How much of a sample a stroke of this half width covers at a distance from its middle.
fn stroke(distance: f64, half: f64, sharpness: f64) -> f64 {
    ((half - distance) * sharpness + 0.5).clamp(0.0, 1.0)
}

#[cfg(test)]
mod tests {
    use super::*;

    /// The samples of a dial as one number.
    fn digest(side: usize) -> u32 {
        dial(side).iter().fold(0x811C_9DC5, |digest, sample| (digest ^ u32::from(*sample)).wrapping_mul(0x0100_0193))
    }

    #[test]
    fn every_run_draws_the_same() {
        assert_eq!([16, 64, 512].map(digest), [1119448468, 2437451948, 1474993791]);
    }

    #[test]
    fn there_is_ground_ink_and_what_is_between() {
        let samples = dial(256);
        let count = |range: std::ops::RangeInclusive<u8>| samples.iter().filter(|sample| range.contains(sample)).count();
        let (ink, between, ground) = (count(34..=34), count(35..=205), count(206..=206));
        assert_eq!(ink + between + ground, 256 * 256);
        assert!(ink > 2000 && between > 2000 && ground > 50_000, "{ink}, {between}, {ground}");
    }
}
