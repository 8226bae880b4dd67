//! Prediction and choice against the formulas of clause 8.3.1.2, and the rule
//! that a missing neighbour has no value.

use reference::{choose, code_block, predict, Mode, Refusal};

const ABOVE: u8 = 1;
const LEFT: u8 = 2;
const CORNER: u8 = 4;
const ABOVE_RIGHT: u8 = 8;

const MODE: Refusal = Refusal {
    number: 3,
    place: 0,
};

/// Bytes without any pattern.
struct Bytes(u64);

impl Bytes {
    fn next(&mut self) -> u8 {
        // Knuth's linear generator; its high bits are the good ones.
        self.0 = self
            .0
            .wrapping_mul(6_364_136_223_846_793_005)
            .wrapping_add(1_442_695_040_888_963_407);
        (self.0 >> 56) as u8
    }

    fn list<const N: usize>(&mut self) -> [u8; N] {
        std::array::from_fn(|_| self.next())
    }
}

/// The sample p[x, y] of the standard, which stands at x = -1 or y = -1, with
/// the substitution for a missing upper right.
fn p(neighbours: &[u8; 13], flags: u8, x: i32, y: i32) -> i32 {
    let index = match (x, y) {
        (-1, -1) => 0,
        (0..=3, -1) => 1 + x,
        (4..=7, -1) if flags & ABOVE_RIGHT == 0 => 4,
        (4..=7, -1) => 1 + x,
        (-1, 0..=3) => 9 + y,
        _ => panic!("p[{x}, {y}] does not border on the block"),
    };
    i32::from(neighbours[index as usize])
}

/// The standard's formulas, letter for letter: `None` where the mode may not
/// be used.
fn standard(neighbours: &[u8; 13], flags: u8, mode: u8) -> Option<[u8; 16]> {
    let has = |bits: u8| flags & bits == bits;
    let permitted = match mode {
        0 | 3 | 7 => has(ABOVE),
        1 | 8 => has(LEFT),
        2 => true,
        4..=6 => has(ABOVE | LEFT | CORNER),
        _ => false,
    };
    if !permitted {
        return None;
    }
    let p = |x: i32, y: i32| p(neighbours, flags, x, y);
    let above = || p(0, -1) + p(1, -1) + p(2, -1) + p(3, -1);
    let left = || p(-1, 0) + p(-1, 1) + p(-1, 2) + p(-1, 3);
    let sample = |x: i32, y: i32| match mode {
        0 => p(x, -1),
        1 => p(-1, y),
        2 if has(ABOVE | LEFT) => (above() + left() + 4) >> 3,
        2 if has(LEFT) => (left() + 2) >> 2,
        2 if has(ABOVE) => (above() + 2) >> 2,
        2 => 128,
        3 if x == 3 && y == 3 => (p(6, -1) + 3 * p(7, -1) + 2) >> 2,
        3 => (p(x + y, -1) + 2 * p(x + y + 1, -1) + p(x + y + 2, -1) + 2) >> 2,
        4 if x > y => (p(x - y - 2, -1) + 2 * p(x - y - 1, -1) + p(x - y, -1) + 2) >> 2,
        4 if x < y => (p(-1, y - x - 2) + 2 * p(-1, y - x - 1) + p(-1, y - x) + 2) >> 2,
        4 => (p(0, -1) + 2 * p(-1, -1) + p(-1, 0) + 2) >> 2,
        5 => {
            let z = 2 * x - y;
            let at = x - (y >> 1);
            match z {
                0 | 2 | 4 | 6 => (p(at - 1, -1) + p(at, -1) + 1) >> 1,
                1 | 3 | 5 => (p(at - 2, -1) + 2 * p(at - 1, -1) + p(at, -1) + 2) >> 2,
                -1 => (p(-1, 0) + 2 * p(-1, -1) + p(0, -1) + 2) >> 2,
                _ => (p(-1, y - 1) + 2 * p(-1, y - 2) + p(-1, y - 3) + 2) >> 2,
            }
        }
        6 => {
            let z = 2 * y - x;
            let at = y - (x >> 1);
            match z {
                0 | 2 | 4 | 6 => (p(-1, at - 1) + p(-1, at) + 1) >> 1,
                1 | 3 | 5 => (p(-1, at - 2) + 2 * p(-1, at - 1) + p(-1, at) + 2) >> 2,
                -1 => (p(-1, 0) + 2 * p(-1, -1) + p(0, -1) + 2) >> 2,
                _ => (p(x - 1, -1) + 2 * p(x - 2, -1) + p(x - 3, -1) + 2) >> 2,
            }
        }
        7 => {
            let at = x + (y >> 1);
            match y {
                0 | 2 => (p(at, -1) + p(at + 1, -1) + 1) >> 1,
                _ => (p(at, -1) + 2 * p(at + 1, -1) + p(at + 2, -1) + 2) >> 2,
            }
        }
        _ => {
            let at = y + (x >> 1);
            match x + 2 * y {
                0 | 2 | 4 => (p(-1, at) + p(-1, at + 1) + 1) >> 1,
                1 | 3 => (p(-1, at) + 2 * p(-1, at + 1) + p(-1, at + 2) + 2) >> 2,
                5 => (p(-1, 2) + 3 * p(-1, 3) + 2) >> 2,
                _ => p(-1, 3),
            }
        }
    };
    Some(std::array::from_fn(|place| {
        sample(place as i32 % 4, place as i32 / 4) as u8
    }))
}

#[test]
fn modes_are_the_standards() {
    let mut bytes = Bytes(1);
    for _ in 0..200 {
        let neighbours = bytes.list();
        for flags in 0..16 {
            for mode in 0..=9 {
                let mut out = [0; 16];
                let result = predict(&neighbours, flags, mode, &mut out);
                match standard(&neighbours, flags, mode) {
                    Some(expected) => {
                        assert_eq!(result, Ok(()));
                        assert_eq!(out, expected, "mode {mode}, flags {flags}");
                    }
                    None => {
                        assert_eq!(result, Err(MODE), "mode {mode}, flags {flags}");
                        assert_eq!(out, [0; 16]);
                    }
                }
            }
        }
    }
}

#[test]
fn choice_is_the_least_sad_and_the_lower_number() {
    let mut bytes = Bytes(2);
    let mut ties = 0;
    for round in 0..400 {
        // A narrow span of samples makes ties between modes frequent.
        let shift = round % 8;
        let neighbours = bytes.list().map(|byte| byte >> shift);
        let samples: [u8; 16] = bytes.list().map(|byte| byte >> shift);
        for flags in 0..16 {
            let sad = |prediction: [u8; 16]| -> u32 {
                (0..16)
                    .map(|place| u32::from(prediction[place].abs_diff(samples[place])))
                    .sum()
            };
            let candidates: Vec<(u32, u8)> = (0..9)
                .filter_map(|mode| Some((sad(standard(&neighbours, flags, mode)?), mode)))
                .collect();
            let &(least, mode) = candidates.iter().min().unwrap();
            ties += i32::from(candidates.iter().filter(|(sad, _)| *sad == least).count() > 1);

            let mut prediction = [0; 16];
            let choice = choose(&neighbours, flags, &samples, &mut prediction).unwrap();
            assert_eq!((choice.sad, choice.mode as u8), (least, mode));
            assert_eq!(Some(prediction), standard(&neighbours, flags, mode));
        }
    }
    assert!(ties > 100, "only {ties} ties");
}

#[test]
fn mode_numbers() {
    for number in 0..=255 {
        match Mode::from_number(number) {
            Some(mode) => assert_eq!(mode as u8, number),
            None => assert!(number > 8),
        }
    }
    assert_eq!(Mode::HorizontalUp as u8, 8);
}

/// Everything the neighbours can have an influence on.
fn all_answers(neighbours: &[u8; 13], flags: u8, samples: &[u8; 16]) -> Vec<String> {
    let mut answers = Vec::new();
    for mode in 0..=9 {
        let mut out = [0; 16];
        let result = predict(neighbours, flags, mode, &mut out);
        answers.push(format!("{result:?} {out:?}"));
    }
    let mut prediction = [0; 16];
    let result = choose(neighbours, flags, samples, &mut prediction);
    answers.push(format!("{result:?} {prediction:?}"));
    let mut levels = [0; 16];
    let mut rebuilt = [0; 16];
    let result = code_block(11, flags, neighbours, samples, &mut levels, &mut rebuilt);
    answers.push(format!("{result:?} {levels:?} {rebuilt:?}"));
    answers
}

#[test]
fn missing_neighbours_have_no_value() {
    let present = |flags: u8, index: usize| {
        let bit = match index {
            0 => CORNER,
            1..=4 => ABOVE,
            5..=8 => ABOVE_RIGHT,
            _ => LEFT,
        };
        flags & bit != 0
    };
    let mut bytes = Bytes(3);
    for flags in 0..16 {
        for _ in 0..50 {
            let neighbours: [u8; 13] = bytes.list();
            let samples = bytes.list();
            let answers = all_answers(&neighbours, flags, &samples);
            for missing in [Some(0), Some(128), Some(255), None] {
                let other = std::array::from_fn(|index| match present(flags, index) {
                    true => neighbours[index],
                    false => missing.unwrap_or_else(|| bytes.next()),
                });
                assert_eq!(all_answers(&other, flags, &samples), answers);
            }
        }
    }
}

#[test]
fn upper_right_without_above_serves_no_mode() {
    let mut bytes = Bytes(4);
    for flags in (0..16).filter(|flags| flags & (ABOVE | ABOVE_RIGHT) == ABOVE_RIGHT) {
        let neighbours = bytes.list();
        let samples = bytes.list();
        assert_eq!(
            all_answers(&neighbours, flags, &samples),
            all_answers(&neighbours, flags & !ABOVE_RIGHT, &samples)
        );
    }
}
