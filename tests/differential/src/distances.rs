//! How far rebuilt samples are off at each QP, beside what is promised: on any blocks, on black and white ones, on patterns, and on
//! blocks whose coefficients lie at the edges of the levels.

use crate::functions::{self, Function};
use crate::peer;
use crate::random::Random;
use crate::request::Argument::{self, Bytes, Number, Numbers};
use reference::Quantizer;
use std::fmt::Write;

const QPS: usize = 52;

fn blocks() -> Function {
    Function {
        cases: QPS * 20_000,
        outcomes: &[0],
        make: block,
        ..functions::ALL[functions::number("fb_code_block") as usize]
    }
}

/// A line for each QP: what the library promises, and the largest distance of all blocks before the clip and after it. A distance
/// above the promise is a fault.
pub fn table(command: &[String]) -> Result<String, String> {
    let mut promised = [0; QPS];
    let promises = &functions::ALL[functions::number("fb_promised_distance") as usize];
    peer::compare(command, promises, |word, arguments| {
        if let ([Number(qp)], 0) = (arguments, word % 256) {
            promised[*qp as usize] = word / 256;
        }
    })?;
    let mut farthest = [[0; 2]; QPS];
    peer::compare(command, &blocks(), |word, arguments| {
        let (qp, seen) = distances(word, arguments);
        for (largest, distance) in farthest[qp].iter_mut().zip(seen) {
            *largest = distance.max(*largest);
        }
    })?;
    let mut table = String::new();
    for (qp, (promise, [before, after])) in promised.into_iter().zip(farthest).enumerate() {
        if before.max(after) > promise {
            return Err(format!(
                "at QP {qp} a sample is {before} off before the clip and {after} after it, and {promise} is promised"
            ));
        }
        writeln!(table, "| {qp} | {promise} | {before} | {after} |").expect("a string takes it");
    }
    Ok(table)
}

/// The QP of a coded block, and how far its samples are off at the most, before the clip and after it. The library shows samples
/// after the clip only: before it they are the reference's, from the library's levels.
fn distances(word: u64, arguments: &[Argument]) -> (usize, [u64; 2]) {
    let [Number(qp), Number(flags), Bytes(neighbours), Bytes(samples), Numbers(levels), Bytes(rebuilt)] =
        arguments
    else {
        unreachable!()
    };
    let (qp, mode) = (*qp as u8, (word / 256 % 16) as u8);
    let mut prediction = [0; 16];
    reference::predict(neighbours, *flags as u8, mode, &mut prediction).expect("it was chosen");
    let levels = levels.as_slice().try_into().expect("they are sixteen");
    let unclipped =
        reference::unclipped(qp, &prediction, levels).expect("they are a block's own levels");
    let after = rebuilt.iter().map(|&sample| sample.into());
    (
        qp.into(),
        [farthest(samples, unclipped), farthest(samples, after)],
    )
}

fn farthest(samples: &[u8], rebuilt: impl IntoIterator<Item = i32>) -> u64 {
    let off = |(sample, &original): (i32, &u8)| sample.abs_diff(original.into());
    rebuilt
        .into_iter()
        .zip(samples)
        .map(off)
        .max()
        .map_or(0, u64::from)
}

/// A block of each QP in turn; about half of them lie at edges.
fn block(random: &mut Random, case: usize) -> Vec<Argument> {
    let (qp, kind) = (case % QPS, case / QPS % 6);
    let (flags, neighbours, samples) = match kind {
        0 => (random.below(16), drawn(random, 13), drawn(random, 16)),
        1 => (random.below(16), hard(random, 13), hard(random, 16)),
        2 => (
            15,
            vec![random.of(&[0, 128, 255]); 13],
            pattern(random).to_vec(),
        ),
        _ => {
            let residual = edges(random, qp as u8);
            let ground = ground(random, &residual);
            let samples = residual.map(|number| (ground + number) as u8);
            (15, vec![ground as u8; 13], samples.to_vec())
        }
    };
    vec![
        Number(qp as i64),
        Number(flags as i64),
        Bytes(neighbours),
        Bytes(samples),
        Numbers(vec![0; 16]),
        Bytes(vec![0; 16]),
    ]
}

fn drawn(random: &mut Random, count: usize) -> Vec<u8> {
    (0..count).map(|_| random.byte()).collect()
}

fn hard(random: &mut Random, count: usize) -> Vec<u8> {
    (0..count).map(|_| random.of(&[0, 255])).collect()
}

/// The rows of the forward transform.
const C: [[i32; 4]; 4] = [[1, 1, 1, 1], [2, 1, -1, -2], [1, -1, -1, 1], [1, -2, 2, -1]];

/// Of place k by place l: 0 both even, 1 both odd, 2 the rest.
fn class(k: usize, l: usize) -> usize {
    match (k % 2, l % 2) {
        (0, 0) => 0,
        (1, 1) => 1,
        _ => 2,
    }
}

/// Two samples, by the signs of a coefficient's basis: stripes, checkerboards and the like.
fn pattern(random: &mut Random) -> [u8; 16] {
    let (k, l) = (random.below(4), random.below(4));
    let two = [random.byte(), random.byte()];
    std::array::from_fn(|place| two[usize::from(C[k][place / 4] * C[l][place % 4] > 0)])
}

/// A residual whose coefficients lie about where the next level begins, mostly level 1, and mostly just below, with the signs at
/// which all that is lost adds up at one sample.
fn edges(random: &mut Random, qp: u8) -> [i32; 16] {
    /// What the transforms leave to MF and V at the places of a class.
    const GAIN: [i64; 3] = [16, 25, 20];
    let scales = Quantizer::new(qp).expect("it is legal").scales();
    let (row, column, sign) = (random.below(4), random.below(4), random.of(&[-1, 1]));
    let (margin, busy) = (random.below(8) as i64, random.once_in(4));
    let coefficients: [i32; 16] = std::array::from_fn(|place| {
        let (k, l) = (place / 4, place % 4);
        let level = match busy {
            true => random.of(&[0, 0, 1, 2]),
            false => 0,
        };
        // A step is V * 2^p * gain / 64 wide, and the edge lies two thirds behind the level.
        let edge = (3 * level + 2) * scales[class(k, l)] * GAIN[class(k, l)] / 192;
        sign * (C[k][row] * C[l][column]).signum() * (edge - margin).max(0) as i32
    });
    fitted(carried_back(random, &coefficients))
}

/// The block that has about these coefficients: "C-transposed times the weighted Y times C is 400X", rounded up or down.
fn carried_back(random: &mut Random, coefficients: &[i32; 16]) -> [i32; 16] {
    const WEIGHT: [i32; 3] = [25, 4, 10];
    let even = random.once_in(4);
    std::array::from_fn(|place| {
        let term = |at: usize| {
            let (k, l) = (at / 4, at % 4);
            C[k][place / 4] * C[l][place % 4] * WEIGHT[class(k, l)] * coefficients[at]
        };
        let rounding = random.between(0, 399);
        let sum: i32 = (0..16).map(term).sum();
        (sum + if even { 200 } else { rounding }).div_euclid(400)
    })
}

/// Made smaller where no prediction could lack so much.
fn fitted(residual: [i32; 16]) -> [i32; 16] {
    let [low, high] = ends(&residual);
    match high - low {
        0..=255 => residual,
        width => residual.map(|number| number * 255 / width),
    }
}

/// The least and the greatest, and 0 between them.
fn ends(residual: &[i32; 16]) -> [i32; 2] {
    let numbers = || residual.iter().copied().chain([0]);
    [numbers().min().unwrap_or(0), numbers().max().unwrap_or(0)]
}

/// A sample that, where all neighbours have it, every mode predicts, and that makes bytes with the residual.
fn ground(random: &mut Random, residual: &[i32; 16]) -> i32 {
    let [low, high] = ends(residual);
    let any = random.between(-low, 255 - high);
    random.of(&[-low, 255 - high, any])
}
