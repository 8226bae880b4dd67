//! The quality sheet: exact sums, one rounding, absent macroblocks, no sheet, and its refusals.

use reference::{quality_sheet, Refusal};

/// What the area holds before a call. No mean is one of these.
const HELD: [f64; 3] = [-1.5, f64::INFINITY, 1e300];

/// A picture: its size in macroblocks, its planes and its map.
struct Picture {
    size: [usize; 2],
    original: Vec<u8>,
    rebuilt: Vec<u8>,
    map: Vec<u8>,
}

impl Picture {
    /// All macroblocks present, each plane one sample over and over.
    fn flat(size: [usize; 2], original: u8, rebuilt: u8) -> Picture {
        let count = size[0] * size[1];
        Picture {
            size,
            original: vec![original; 256 * count],
            rebuilt: vec![rebuilt; 256 * count],
            map: vec![1; count],
        }
    }

    fn random(size: [usize; 2], next: &mut impl FnMut() -> u8) -> Picture {
        let mut picture = Picture::flat(size, 0, 0);
        picture.original.fill_with(&mut *next);
        picture.rebuilt.fill_with(&mut *next);
        picture.map.fill_with(|| next() % 2);
        picture
    }

    fn sheet(&self, out: &mut [f64]) -> Result<bool, Refusal> {
        let [width, height] = self.size;
        quality_sheet(width, height, &self.original, &self.rebuilt, &self.map, out)
    }

    /// The three means, where something is present.
    fn means(&self) -> [f64; 3] {
        let mut out = HELD;
        assert_eq!(self.sheet(&mut out), Ok(true));
        out
    }

    /// The refusal, and that nothing is written.
    fn refuses(&self, number: u8, place: u64) {
        let mut out = HELD;
        assert_eq!(self.sheet(&mut out), Err(Refusal { number, place }));
        assert_eq!(out, HELD);
    }

    /// The three sums and their count, macroblock after macroblock.
    fn sums(&self) -> ([i128; 3], i128) {
        let (mut sums, mut count) = ([0; 3], 0);
        let stride = 16 * self.size[0];
        for (m, _) in self.map.iter().enumerate().filter(|(_, &byte)| byte == 1) {
            let first = m / self.size[0] * 16 * stride + m % self.size[0] * 16;
            for place in (0..256).map(|k| first + k / 16 * stride + k % 16) {
                let error = i128::from(self.rebuilt[place]) - i128::from(self.original[place]);
                for (sum, term) in sums.iter_mut().zip([error.abs(), error * error, error]) {
                    *sum += term;
                }
                count += 1;
            }
        }
        (sums, count)
    }
}

/// A double as the fraction m / 2^k, in whole numbers.
fn fraction(value: f64) -> (i128, u32) {
    let bits = value.to_bits();
    let exponent = (bits >> 52 & 2047) as i32;
    if value == 0.0 {
        return (0, 0);
    }
    assert!(
        (1023 - 60..1023 + 52).contains(&exponent),
        "{value} is no mean of a small picture"
    );
    let digits = (bits & ((1 << 52) - 1) | 1 << 52) as i128;
    (
        if value < 0.0 { -digits } else { digits },
        (1075 - exponent) as u32,
    )
}

/// How far mean times count is from the sum, times 2^k: exact.
fn miss(mean: f64, sum: i128, count: i128, k: u32) -> i128 {
    let (m, own) = fraction(mean);
    (m * count * (1 << (k - own)) - sum * (1 << k)).abs()
}

fn exactly(mean: f64, sum: i128, count: i128) -> bool {
    miss(mean, sum, count, fraction(mean).1) == 0
}

fn generator() -> impl FnMut() -> u8 {
    let mut state = 9_u64;
    move || {
        state = state
            .wrapping_mul(6_364_136_223_846_793_005)
            .wrapping_add(1_442_695_040_888_963_407);
        (state >> 56) as u8
    }
}

/// The largest picture with the largest errors: 2^22 of them, each 255 or 65025, and nothing is lost.
#[test]
fn largest_is_exact() {
    for (original, rebuilt, error) in [(0, 255, 255), (255, 0, -255)] {
        let means = Picture::flat([128, 128], original, rebuilt).means();
        assert_eq!(means, [255.0, 65025.0, f64::from(error)]);
        for (mean, each) in means.into_iter().zip([255, 65025, error]) {
            assert!(exactly(mean, i128::from(each) << 22, 1 << 22));
        }
    }
}

/// Against exact rational arithmetic: no other double is as near, and where the count is a power of two none is needed.
#[test]
fn rounded_once() {
    let mut next = generator();
    let (mut inexact, mut powers) = (0, 0);
    for case in 0..400 {
        let picture = Picture::random([1 + case % 5, 1 + case / 5 % 4], &mut next);
        let (sums, count) = picture.sums();
        if count == 0 {
            continue;
        }
        for (mean, sum) in picture.means().into_iter().zip(sums) {
            if count & (count - 1) == 0 {
                assert!(exactly(mean, sum, count));
                powers += 1;
            }
            if !exactly(mean, sum, count) {
                inexact += 1;
                for other in [mean.next_up(), mean.next_down()] {
                    let k = fraction(mean).1.max(fraction(other).1);
                    assert!(miss(mean, sum, count, k) < miss(other, sum, count, k));
                }
            }
            // and it is what the machine's own division gives
            assert_eq!(mean.to_bits(), (sum as f64 / count as f64).to_bits());
        }
    }
    assert!(inexact > 100 && powers > 100);
}

/// 5/3 of a step below and above: by the rounded reciprocal of the count it would be another double.
#[test]
fn not_by_the_reciprocal() {
    let mut picture = Picture::flat([3, 1], 100, 102);
    picture.rebuilt[..256].fill(101);
    let (sums, count) = picture.sums();
    assert_eq!((sums[2], count), (1280, 768));
    assert_eq!(picture.means()[2], 5.0 / 3.0);
    assert_ne!(picture.means()[2], 1280.0 * (1.0 / 768.0));
}

#[test]
fn absent_is_left_out() {
    let mut next = generator();
    for case in 0..200 {
        let mut picture = Picture::random([1 + case % 4, 1 + case / 4 % 3], &mut next);
        picture.map[0] = 1;
        let means = picture.means();
        let stride = 16 * picture.size[0];
        for place in 0..picture.original.len() {
            let m = place / stride / 16 * picture.size[0] + place % stride / 16;
            if picture.map[m] == 0 {
                picture.original[place] = next();
                picture.rebuilt[place] = next();
            }
        }
        assert_eq!(picture.means(), means);
    }
}

#[test]
fn nothing_present_is_no_sheet() {
    for size in [[1, 1], [3, 2], [128, 1], [1, 128]] {
        let mut picture = Picture::flat(size, 7, 9);
        picture.map.fill(0);
        let mut out = HELD;
        assert_eq!(picture.sheet(&mut out), Ok(false));
        assert_eq!(out, HELD);
        *picture.map.last_mut().unwrap() = 1;
        assert_eq!(picture.means(), [2.0, 4.0, 2.0]);
    }
}

#[test]
fn refusals() {
    for size in [[0, 1], [1, 0], [129, 1], [1, 129], [0, 0], [usize::MAX, 2]] {
        // SIZE comes before LENGTH and FLAGS
        let mut picture = Picture::flat([1, 1], 0, 0);
        picture.size = size;
        picture.map[0] = 2;
        picture.refuses(8, 0);
    }
    for size in [[1, 1], [2, 3]] {
        for off in [-1_isize, 1] {
            for slice in 0..3 {
                // LENGTH comes before FLAGS
                let mut picture = Picture::flat(size, 0, 0);
                picture.map.fill(2);
                let lent = [
                    &mut picture.original,
                    &mut picture.rebuilt,
                    &mut picture.map,
                ];
                let length = lent[slice].len().checked_add_signed(off).unwrap();
                lent[slice].resize(length, 2);
                picture.refuses(1, 0);
            }
        }
        for length in [0, 2, 4] {
            let picture = Picture::flat(size, 0, 0);
            let mut out = vec![HELD[0]; length];
            assert_eq!(
                picture.sheet(&mut out),
                Err(Refusal {
                    number: 1,
                    place: 0
                })
            );
            assert!(out.iter().all(|&held| held == HELD[0]));
        }
        for byte in [2, 255] {
            let last = size[0] * size[1] - 1;
            for place in [0, last] {
                let mut picture = Picture::flat(size, 0, 0);
                picture.map[place] = byte;
                picture.refuses(10, place as u64);
            }
            // the first such byte names the place
            let mut picture = Picture::flat(size, 0, 0);
            picture.map.fill(byte);
            picture.refuses(10, 0);
        }
    }
}
