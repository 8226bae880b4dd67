//! Intra 16x16: the prediction of a whole macroblock (clause 8.3.3), and the
//! macroblock's way through the luma DC path.

use crate::macroblock::column_and_row;
use crate::record::Sixteen;
use crate::{forward, levels, luma_dc_levels, luma_dc_values, rebuild_with_dc, Refusal};

/// The samples beside a macroblock, whose side in its plane is N: 16 in luma, and
/// 8 in chroma. A missing one is `None`.
#[derive(Clone, Copy)]
pub(crate) struct Sides<const N: usize> {
    /// From left to right.
    pub(crate) above: Option<[u8; N]>,
    /// Downwards.
    pub(crate) left: Option<[u8; N]>,
    pub(crate) corner: Option<u8>,
}

/// The prediction by rows, or nothing where there is no such mode or a sample
/// that it needs is missing.
fn predicted(sides: &Sides<16>, mode: u8) -> Option<[u8; 256]> {
    match mode {
        0 => sides.above.map(|above| macroblock(|x, _| above[x])),
        1 => sides.left.map(|left| macroblock(|_, y| left[y])),
        2 => Some([dc(sides.above, sides.left); 256]),
        3 => Some(plane(sides.above?, sides.left?, sides.corner?)),
        _ => None,
    }
}

/// The macroblock that has `sample(x, y)` in column x of row y.
fn macroblock(sample: impl Fn(usize, usize) -> u8) -> [u8; 256] {
    std::array::from_fn(|place| sample(place % 16, place / 16))
}

/// The one value of the DC mode (clause 8.3.3.3).
fn dc(above: Option<[u8; 16]>, left: Option<[u8; 16]>) -> u8 {
    let sum = |side: [u8; 16]| side.into_iter().map(u16::from).sum::<u16>();
    let mean = match (above, left) {
        (Some(above), Some(left)) => (sum(above) + sum(left) + 16) >> 5,
        (Some(side), None) | (None, Some(side)) => (sum(side) + 8) >> 4,
        (None, None) => 128,
    };
    mean as u8
}

/// The plane mode (clause 8.3.3.4).
fn plane(above: [u8; 16], left: [u8; 16], corner: u8) -> [u8; 256] {
    // The clause's H or V: p[-1, -1] stands before the first sample of a side.
    let slope = |side: [u8; 16]| -> i32 {
        let p = |along: i32| match along {
            -1 => i32::from(corner),
            _ => i32::from(side[along as usize]),
        };
        (0..=7).map(|k| (k + 1) * (p(8 + k) - p(6 - k))).sum()
    };
    let a = 16 * (i32::from(left[15]) + i32::from(above[15]));
    let b = (5 * slope(above) + 32) >> 6;
    let c = (5 * slope(left) + 32) >> 6;
    macroblock(|x, y| {
        let value = (a + b * (x as i32 - 7) + c * (y as i32 - 7) + 16) >> 5;
        value.clamp(0, 255) as u8
    })
}

/// The SAD of each mode by its number, or nothing for one that lacks a sample.
pub(crate) fn sads(sides: &Sides<16>, samples: &[u8; 256]) -> [Option<u32>; 4] {
    let sad = |prediction: [u8; 256]| {
        let pairs = prediction.iter().zip(samples);
        pairs.map(|(&p, &s)| u32::from(p.abs_diff(s))).sum()
    };
    [0, 1, 2, 3].map(|mode| predicted(sides, mode).map(sad))
}

impl Sixteen {
    /// What a permitted mode makes of a macroblock's samples.
    pub(crate) fn coded(qp: u8, sides: &Sides<16>, mode: u8, samples: &[u8; 256]) -> Sixteen {
        let prediction = predicted(sides, mode).expect("the mode is permitted");
        let mut values = [0; 16];
        let mut ac = [[0; 15]; 16];
        for (block, ac) in ac.iter_mut().enumerate() {
            let (predicted, wanted) = (part(&prediction, block), part(samples, block));
            let residual: [i32; 16] =
                std::array::from_fn(|k| i32::from(wanted[k]) - i32::from(predicted[k]));
            let (mut coefficients, mut own) = ([0; 16], [0; 16]);
            forward(&residual, &mut coefficients).expect("samples differ by 255 at most");
            levels(qp, &residual, &mut own).expect("samples differ by 255 at most");
            let (column, row) = column_and_row(block);
            values[4 * row + column] = coefficients[0];
            *ac = std::array::from_fn(|index| own[index + 1] as i16);
        }
        let mut dc = [0; 16];
        luma_dc_levels(qp, &values, &mut dc).expect("16 differences sum up to 4080 at most");
        let dc = dc.map(|level| level as i16);
        Sixteen { mode, dc, ac }
    }

    /// The samples that a decoder makes of it, by rows. MODE; RANGE.
    pub(crate) fn decoded(&self, qp: u8, sides: &Sides<16>) -> Result<[u8; 256], Refusal> {
        let prediction = predicted(sides, self.mode).ok_or(Refusal::MODE)?;
        let values = self.values(qp)?;
        let mut samples = [0; 256];
        for (block, ac) in self.ac.iter().enumerate() {
            let (column, row) = column_and_row(block);
            let rebuilt = rebuilt(qp, &part(&prediction, block), values[4 * row + column], ac)?;
            for (k, sample) in rebuilt.into_iter().enumerate() {
                samples[inside(block, k)] = sample;
            }
        }
        Ok(samples)
    }

    /// MODE, then RANGE of the DC values, then RANGE of the AC, with 0 in the
    /// DC's place; the place is the block, 0 for the first two.
    pub(crate) fn test(&self, qp: u8, sides: &Sides<16>) -> Result<(), Refusal> {
        predicted(sides, self.mode).ok_or(Refusal::MODE)?;
        self.values(qp).map_err(|_| Refusal::range(0))?;
        for (block, ac) in self.ac.iter().enumerate() {
            rebuilt(qp, &[0; 16], 0, ac).map_err(|_| Refusal::range(block))?;
        }
        Ok(())
    }

    /// The rescaled DC values by the rows of their blocks.
    fn values(&self, qp: u8) -> Result<[i32; 16], Refusal> {
        let mut values = [0; 16];
        luma_dc_values(qp, &self.dc.map(i32::from), &mut values)?;
        Ok(values)
    }
}

fn rebuilt(qp: u8, prediction: &[u8; 16], dc: i32, ac: &[i16; 15]) -> Result<[u8; 16], Refusal> {
    let mut out = [0; 16];
    rebuild_with_dc(qp, prediction, dc, &ac.map(i32::from), &mut out)?;
    Ok(out)
}

/// Where sample k of a block stands in its macroblock.
fn inside(block: usize, k: usize) -> usize {
    let (column, row) = column_and_row(block);
    16 * (4 * row + k / 4) + 4 * column + k % 4
}

/// The samples of a block of a macroblock.
fn part(macroblock: &[u8; 256], block: usize) -> [u8; 16] {
    std::array::from_fn(|k| macroblock[inside(block, k)])
}

#[cfg(test)]
mod tests {
    use super::*;

    const RAMP: [u8; 16] = [3, 6, 9, 12, 15, 18, 21, 24, 27, 30, 33, 36, 39, 42, 45, 48];

    const ALL: Sides<16> = Sides {
        above: Some(RAMP),
        left: Some([100; 16]),
        corner: Some(0),
    };

    #[test]
    fn needs() {
        let permitted = |above: bool, left: bool, corner: bool| {
            let sides = Sides {
                above: ALL.above.filter(|_| above),
                left: ALL.left.filter(|_| left),
                corner: ALL.corner.filter(|_| corner),
            };
            [0, 1, 2, 3, 4, 255].map(|mode| predicted(&sides, mode).is_some())
        };
        for corner in [false, true] {
            let only = [false, false, true, false, false, false];
            assert_eq!(permitted(false, false, corner), only);
            let below = [true, false, true, false, false, false];
            assert_eq!(permitted(true, false, corner), below);
            let beside = [false, true, true, false, false, false];
            assert_eq!(permitted(false, true, corner), beside);
            assert_eq!(
                permitted(true, true, corner),
                [true, true, true, corner, false, false]
            );
        }
    }

    #[test]
    fn means() {
        // 3 times 1 to 16 is 408: (408+8)/16 is 26; with 1600 more (2008+16)/32 is 63.25.
        assert_eq!(dc(Some(RAMP), None), 26);
        assert_eq!(dc(None, Some([100; 16])), 100);
        assert_eq!(dc(Some(RAMP), Some([100; 16])), 63);
        assert_eq!(dc(None, None), 128);
        // Halves go up.
        let mut side = [0; 16];
        side[3] = 8;
        assert_eq!(dc(Some(side), None), 1);
        side[3] = 7;
        assert_eq!(dc(None, Some(side)), 0);
        side[3] = 16;
        assert_eq!(dc(Some(side), Some([0; 16])), 1);
        assert_eq!(dc(Some([0; 16]), Some([255; 16])), 128);
    }

    #[test]
    fn vertical_and_horizontal() {
        let vertical = predicted(&ALL, 0).unwrap();
        let sides = Sides {
            left: Some(RAMP),
            ..ALL
        };
        let horizontal = predicted(&sides, 1).unwrap();
        for place in 0..256 {
            assert_eq!(vertical[place], RAMP[place % 16]);
            assert_eq!(horizontal[place], RAMP[place / 16]);
        }
    }

    /// A true plane comes back as itself: with p = 40 + 3x + 5y (the corner at
    /// -1, -1) the differences are 3 * (2k + 2), H = 6 * 204 = 1224 and
    /// b = (6120+32)>>6 = 96, that is 3 in 32nds; V = 2040, c = (10200+32)>>6 =
    /// 159, one short of 160. a = 16 * ((40-3+75) + (40+45-5)) = 3072.
    #[test]
    fn a_plane_by_hand() {
        let p = |x: i32, y: i32| (40 + 3 * x + 5 * y) as u8;
        let above = std::array::from_fn(|x| p(x as i32, -1));
        let left = std::array::from_fn(|y| p(-1, y as i32));
        let plane = plane(above, left, p(-1, -1));
        for (place, sample) in plane.into_iter().enumerate() {
            let (x, y) = (place as i32 % 16, place as i32 / 16);
            let expected = (3072 + 96 * (x - 7) + 159 * (y - 7) + 16) >> 5;
            assert_eq!(i32::from(sample), expected);
            assert!((expected - i32::from(p(x, y))).abs() <= 1);
        }
    }

    /// The last difference of each sum reaches the corner, with weight 8.
    #[test]
    fn the_corner_counts_eight_times() {
        let flat = [64; 16];
        // H = V = 8 * (64 - 0) = 512, b = c = (2560+32)>>6 = 40, a = 2048.
        let plane = plane(flat, flat, 0);
        assert_eq!(plane[16 * 7 + 7], ((2048 + 16) >> 5) as u8);
        assert_eq!(plane[0], ((2048 - 2 * 7 * 40 + 16) >> 5) as u8);
        assert_eq!(plane[255], ((2048 + 2 * 8 * 40 + 16) >> 5) as u8);
    }

    #[test]
    fn a_plane_is_clipped_and_rounds_down() {
        let (mut above, mut left) = ([0; 16], [0; 16]);
        above[8..].fill(255);
        left[8..].fill(255);
        // H = V = 36 * 255 = 9180, b = c = (45900+32)>>6 = 717, a = 8160.
        let up = plane(above, left, 0);
        assert_eq!([up[0], up[255]], [0, 255]);
        assert_eq!(up[16 * 7 + 7], ((8160 + 16) >> 5) as u8);
        // A white corner alone: H = V = -2040, b = c = (-10200+32)>>6 = -159, which
        // is -158.875 rounded down, a = 0.
        let down = plane([0; 16], [0; 16], 255);
        assert_eq!(down[0], ((2 * 7 * 159 + 16) >> 5) as u8);
        assert_eq!(down[16 * 7 + 8], 0);
    }
}
