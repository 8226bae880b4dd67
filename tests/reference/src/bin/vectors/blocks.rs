//! The functions on a 4x4 block.

use crate::numbers::QPS;
use crate::request::{everywhere, held, held_numbers, with, with_each, wrong_lengths};
use reference::calls::Argument::{self, Bytes, Number, Numbers};

/// M, A to H, I to L.
const AROUND: [u8; 13] = [7, 10, 20, 30, 40, 50, 60, 70, 80, 15, 25, 30, 41];

/// Samples to be predicted.
const WANTED: [u8; 16] = [
    12, 21, 33, 38, 19, 30, 41, 52, 28, 41, 50, 58, 40, 49, 61, 70,
];

pub fn predict() -> Vec<Vec<Argument>> {
    let of = |neighbours: &[u8], flags: u8, mode: u8, out| {
        vec![
            Bytes(neighbours.to_vec()),
            Number(flags.into()),
            Number(mode.into()),
            held(out),
        ]
    };
    let modes = || (0..=9).chain([255]);
    let every = (0..=16)
        .chain([255])
        .flat_map(|flags| modes().map(move |mode| of(&AROUND, flags, mode, 16)));
    let drawn = drawn().map(|block| of(&block.neighbours, block.flags, block.mode, 16));
    [
        wrong_lengths(&of(&AROUND, 15, 2, 16)),
        vec![of(&AROUND[..12], 16, 9, 15)],
        every.collect(),
        drawn.collect(),
    ]
    .concat()
}

pub fn choose() -> Vec<Vec<Argument>> {
    let good = [
        Bytes(AROUND.to_vec()),
        Number(15),
        Bytes(WANTED.to_vec()),
        held(16),
    ];
    let flags: Vec<i64> = (0..=16).chain([255]).collect();
    let hundreds = [Bytes(vec![100; 13]), Number(15), Bytes(vec![100; 16])];
    [
        wrong_lengths(&good),
        with_each(&good, 1, &flags),
        vec![[hundreds.as_slice(), &[held(16)]].concat()],
    ]
    .concat()
}

/// The numbers at the ends of 32 bits, at those of a level and just behind them, and where QP 0 leaves 16 bits.
const LEVELS: [i32; 6] = [i32::MIN, i32::MAX, -32769, 32768, 32767, 3277];

/// The levels of Richardson's block at QP 10.
const RICHARDSON: [i32; 16] = [17, 0, -1, 3, -2, -1, 0, 0, 1, -2, -1, 1, -5, 2, -5, -1];

pub fn rebuild() -> Vec<Vec<Argument>> {
    let of = |qp: u8, prediction: &[u8], levels: &[i32]| {
        let levels = Numbers(levels.to_vec());
        vec![
            Number(qp.into()),
            Bytes(prediction.to_vec()),
            levels,
            held(16),
        ]
    };
    let good = of(10, &[100; 16], &[0; 16]);
    let lowest = with(&good, 0, Number(0));
    [
        wrong_lengths(&good),
        with_each(&good, 0, &QPS),
        everywhere(&lowest, 2, 16, &LEVELS),
        everywhere(&lowest, 2, 16, &[3276, -3276, -3277])[..3].to_vec(),
        vec![of(10, &[100; 16], &RICHARDSON)],
        drawn()
            .filter_map(|block| {
                let prediction = block.prediction()?;
                let levels = block.levels()?;
                Some(of(block.qp, &prediction, &levels))
            })
            .collect(),
    ]
    .concat()
}

pub fn rebuild_with_dc() -> Vec<Vec<Argument>> {
    let good = [
        Number(10),
        Bytes(vec![100; 16]),
        Number(64),
        Numbers(vec![0; 15]),
        held(16),
    ];
    let lowest = with(&good, 0, Number(0));
    let beyond = with(&lowest, 2, Number(32768));
    let ends = [
        32767,
        32768,
        -32768,
        -32769,
        i32::MIN.into(),
        i32::MAX.into(),
    ];
    [
        wrong_lengths(&good),
        with_each(&good, 0, &QPS),
        everywhere(&lowest, 3, 15, &[i32::MIN, i32::MAX, 3277]),
        everywhere(&beyond, 3, 15, &[32768]),
        with_each(&lowest, 2, &ends),
    ]
    .concat()
}

pub fn code_block() -> Vec<Vec<Argument>> {
    let of = |block: Block| {
        vec![
            Number(block.qp.into()),
            Number(block.flags.into()),
            Bytes(block.neighbours.to_vec()),
            Bytes(block.samples.to_vec()),
            held_numbers(16),
            held(16),
        ]
    };
    let good = of(drawn().next().expect("there are some"));
    [wrong_lengths(&good), drawn().map(of).collect()].concat()
}

/// A block with what is round it.
struct Block {
    qp: u8,
    flags: u8,
    mode: u8,
    neighbours: [u8; 13],
    samples: [u8; 16],
}

impl Block {
    /// By its mode, if that may be asked for.
    fn prediction(&self) -> Option<[u8; 16]> {
        let mut out = [0; 16];
        reference::predict(&self.neighbours, self.flags, self.mode, &mut out).ok()?;
        Some(out)
    }

    /// Those that the coder makes.
    fn levels(&self) -> Option<[i32; 16]> {
        let Block {
            qp,
            flags,
            neighbours,
            samples,
            ..
        } = self;
        let mut levels = [0; 16];
        reference::code_block(*qp, *flags, neighbours, samples, &mut levels, &mut [0; 16]).ok()?;
        Some(levels)
    }
}

/// 2747 blocks: for each mode 0 to 9, each flags byte 0 to 16, each QP of eight, a block of samples within a random span (narrow ones
/// give ties between modes and small levels, wide ones large levels), and one of samples 0 and 255 only. Then blocks of the first
/// kind for each QP of 51, 52, 255, each flags byte of 15, 16, 255, each mode of 2, 9, 255.
fn drawn() -> impl Iterator<Item = Block> {
    let mut random = Random(1);
    let mut blocks = Vec::new();
    let mut draw = |qp, flags, mode, extreme: bool| {
        let span = (!extreme).then(|| {
            let span = random.one_of(&[1, 3, 15, 63, 255]);
            let low = random.between(0, 255 - span);
            (low, low + span)
        });
        let mut sample = || match span {
            Some((low, high)) => random.between(low, high) as u8,
            None => random.one_of(&[0, 255]),
        };
        blocks.push(Block {
            qp,
            flags,
            mode,
            neighbours: std::array::from_fn(|_| sample()),
            samples: std::array::from_fn(|_| sample()),
        });
    };
    for mode in 0..=9 {
        for flags in 0..=16 {
            for qp in [0, 5, 6, 17, 28, 29, 44, 51] {
                draw(qp, flags, mode, false);
                draw(qp, flags, mode, true);
            }
        }
    }
    for qp in [51, 52, 255] {
        for flags in [15, 16, 255] {
            for mode in [2, 9, 255] {
                draw(qp, flags, mode, false);
            }
        }
    }
    blocks.into_iter()
}

/// The splitmix64 generator, so that the recordings depend on nothing else.
struct Random(u64);

impl Random {
    fn next(&mut self) -> u64 {
        self.0 = self.0.wrapping_add(0x9E37_79B9_7F4A_7C15);
        let mut z = self.0;
        z = (z ^ (z >> 30)).wrapping_mul(0xBF58_476D_1CE4_E5B9);
        z = (z ^ (z >> 27)).wrapping_mul(0x94D0_49BB_1331_11EB);
        z ^ (z >> 31)
    }

    /// A number from `low` to `high`.
    fn between(&mut self, low: i32, high: i32) -> i32 {
        let count = (i64::from(high) - i64::from(low) + 1) as u64;
        (i64::from(low) + (self.next() % count) as i64) as i32
    }

    fn one_of<T: Copy>(&mut self, choices: &[T]) -> T {
        choices[self.between(0, choices.len() as i32 - 1) as usize]
    }
}
