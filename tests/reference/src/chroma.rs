//! Chroma of a macroblock, 8x8 samples of Cb and of Cr: their prediction (clause
//! 8.3.4), and their way through the chroma DC path (clause 8.5.11).

use crate::record::{Chroma, ChromaLevels};
use crate::sixteen::Sides;
use crate::{
    chroma_dc_levels, chroma_dc_values, chroma_quantizer, forward, levels, rebuild_with_dc, Refusal,
};

/// The prediction by rows, or nothing where there is no such mode or a sample
/// that it needs is missing. The modes have numbers of their own (table 8-5).
fn predicted(sides: &Sides<8>, mode: u8) -> Option<[u8; 64]> {
    match mode {
        0 => Some(dc(sides)),
        1 => sides.left.map(|left| square(|_, y| left[y])),
        2 => sides.above.map(|above| square(|x, _| above[x])),
        3 => Some(plane(sides.above?, sides.left?, sides.corner?)),
        _ => None,
    }
}

/// The samples that are `sample(x, y)` in column x of row y.
fn square(sample: impl Fn(usize, usize) -> u8) -> [u8; 64] {
    std::array::from_fn(|place| sample(place % 8, place / 8))
}

/// The DC mode, for each part of 4x4 by the four samples above and the four at its
/// left (clauses 8.3.4.1 to 8.3.4.3).
fn dc(sides: &Sides<8>) -> [u8; 64] {
    let sum = |side: Option<[u8; 8]>, part: usize| -> Option<u16> {
        side.map(|side| side[4 * part..][..4].iter().map(|&it| u16::from(it)).sum())
    };
    let alone = |sum: u16| (sum + 2) >> 2;
    let part = |column: usize, row: usize| {
        let (above, left) = (sum(sides.above, column), sum(sides.left, row));
        match (column, row) {
            (1, 0) => above.or(left).map(alone),
            (0, 1) => left.or(above).map(alone),
            _ => match (above, left) {
                (Some(above), Some(left)) => Some((above + left + 4) >> 3),
                _ => above.or(left).map(alone),
            },
        }
    };
    square(|x, y| part(x / 4, y / 4).unwrap_or(128) as u8)
}

/// The plane mode (clause 8.3.4.4, with xCF and yCF 0, as 4:2:0 has them).
fn plane(above: [u8; 8], left: [u8; 8], corner: u8) -> [u8; 64] {
    // The clause's H or V: p[-1, -1] stands before the first sample of a side.
    let slope = |side: [u8; 8]| -> i32 {
        let p = |along: i32| match along {
            -1 => i32::from(corner),
            _ => i32::from(side[along as usize]),
        };
        (0..=3).map(|k| (k + 1) * (p(4 + k) - p(2 - k))).sum()
    };
    let a = 16 * (i32::from(left[7]) + i32::from(above[7]));
    let b = (34 * slope(above) + 32) >> 6;
    let c = (34 * slope(left) + 32) >> 6;
    square(|x, y| {
        let value = (a + b * (x as i32 - 3) + c * (y as i32 - 3) + 16) >> 5;
        value.clamp(0, 255) as u8
    })
}

/// What the modes cost in each of the two planes: Cb's by mode, then Cr's; nothing
/// for a mode that lacks what it needs.
pub struct ChromaSads(pub [[Option<u32>; 4]; 2]);

impl ChromaSads {
    pub(crate) fn new(sides: &[Sides<8>; 2], samples: &[[u8; 64]; 2]) -> ChromaSads {
        let of_mode = |plane: usize, mode: u8| {
            let prediction = predicted(&sides[plane], mode)?;
            let pairs = prediction.iter().zip(&samples[plane]);
            Some(pairs.map(|(&p, &s)| u32::from(p.abs_diff(s))).sum())
        };
        ChromaSads([0, 1].map(|plane| [0, 1, 2, 3].map(|mode| of_mode(plane, mode))))
    }

    /// "One mode serves Cb and Cr, chosen by the summed SAD": by mode.
    pub fn summed(&self) -> [Option<u32>; 4] {
        let [cb, cr] = self.0;
        std::array::from_fn(|mode| Some(cb[mode]? + cr[mode]?))
    }

    /// The mode that is chosen: "lower number on a tie".
    pub fn best(&self) -> u8 {
        let permitted = (0..).zip(self.summed());
        let costs = permitted.filter_map(|(mode, sad)| Some((sad?, mode)));
        let (_, mode) = costs.min().expect("the DC mode needs no neighbour");
        mode
    }
}

impl Chroma {
    /// What a permitted mode makes of a macroblock's samples; the QP and the offsets
    /// are legal.
    pub(crate) fn coded(
        qp: u8,
        offsets: [i8; 2],
        sides: &[Sides<8>; 2],
        mode: u8,
        samples: &[[u8; 64]; 2],
    ) -> Chroma {
        let levels = std::array::from_fn(|plane| {
            let quantizer = chroma_quantizer(qp, offsets[plane].into()).expect("it is legal");
            let prediction = predicted(&sides[plane], mode).expect("the mode is permitted");
            ChromaLevels::coded(quantizer, &prediction, &samples[plane])
        });
        Chroma {
            offsets,
            mode,
            levels,
        }
    }

    /// The samples of Cb and Cr that a decoder makes of it, by rows. The refusals of
    /// `test`.
    pub(crate) fn decoded(&self, qp: u8, sides: &[Sides<8>; 2]) -> Result<[[u8; 64]; 2], Refusal> {
        let mut samples = [[0; 64]; 2];
        for (plane, quantizer) in self.quantizers(qp)?.into_iter().enumerate() {
            let prediction = predicted(&sides[plane], self.mode).ok_or(Refusal::MODE)?;
            samples[plane] = self.levels[plane].decoded(quantizer, &prediction)?;
        }
        Ok(samples)
    }

    /// "QUANTIZER for either offset, Cb first; MODE above 3 or needing what is
    /// missing; then ranges": Cb's DC, its AC, Cr's DC, its AC. The place is 0. The
    /// planes lack the same.
    pub(crate) fn test(&self, qp: u8, sides: &Sides<8>) -> Result<(), Refusal> {
        let quantizers = self.quantizers(qp)?;
        predicted(sides, self.mode).ok_or(Refusal::MODE)?;
        for (levels, quantizer) in self.levels.iter().zip(quantizers) {
            let decoded = levels.decoded(quantizer, &[0; 64]);
            decoded.map_err(|_| Refusal::range(0))?;
        }
        Ok(())
    }

    fn quantizers(&self, qp: u8) -> Result<[u8; 2], Refusal> {
        let [cb, cr] = self.offsets.map(i32::from);
        Ok([chroma_quantizer(qp, cb)?, chroma_quantizer(qp, cr)?])
    }
}

impl ChromaLevels {
    fn coded(quantizer: u8, prediction: &[u8; 64], samples: &[u8; 64]) -> ChromaLevels {
        let mut values = [0; 4];
        let mut ac = [[0; 15]; 4];
        for block in 0..4 {
            let residual: [i32; 16] = std::array::from_fn(|k| {
                let place = inside(block, k);
                i32::from(samples[place]) - i32::from(prediction[place])
            });
            let (mut coefficients, mut own) = ([0; 16], [0; 16]);
            forward(&residual, &mut coefficients).expect("samples differ by 255 at most");
            levels(quantizer, &residual, &mut own).expect("samples differ by 255 at most");
            values[block] = coefficients[0];
            ac[block] = std::array::from_fn(|index| own[index + 1] as i16);
        }
        let mut dc = [0; 4];
        chroma_dc_levels(quantizer, &values, &mut dc).expect("16 differences sum up to 4080");
        let dc = dc.map(|level| level as i16);
        ChromaLevels { dc, ac }
    }

    /// The samples by rows. RANGE: of the DC values, then of the AC.
    fn decoded(&self, quantizer: u8, prediction: &[u8; 64]) -> Result<[u8; 64], Refusal> {
        let mut values = [0; 4];
        chroma_dc_values(quantizer, &self.dc.map(i32::from), &mut values)?;
        let mut samples = [0; 64];
        for (block, ac) in self.ac.iter().enumerate() {
            let part: [u8; 16] = std::array::from_fn(|k| prediction[inside(block, k)]);
            let mut rebuilt = [0; 16];
            let ac = ac.map(i32::from);
            rebuild_with_dc(quantizer, &part, values[block], &ac, &mut rebuilt)?;
            for (k, sample) in rebuilt.into_iter().enumerate() {
                samples[inside(block, k)] = sample;
            }
        }
        Ok(samples)
    }
}

/// Where sample k of a block stands among the 8x8; the blocks go by rows.
fn inside(block: usize, k: usize) -> usize {
    8 * (4 * (block / 2) + k / 4) + 4 * (block % 2) + k % 4
}

#[cfg(test)]
mod tests {
    use super::*;

    const ABOVE: [u8; 8] = [10, 20, 30, 40, 110, 120, 130, 141];
    const LEFT: [u8; 8] = [1, 2, 3, 5, 200, 201, 202, 204];

    const ALL: Sides<8> = Sides {
        above: Some(ABOVE),
        left: Some(LEFT),
        corner: Some(7),
    };

    fn with(above: bool, left: bool, corner: bool) -> Sides<8> {
        Sides {
            above: ALL.above.filter(|_| above),
            left: ALL.left.filter(|_| left),
            corner: ALL.corner.filter(|_| corner),
        }
    }

    #[test]
    fn needs() {
        for corner in [false, true] {
            for above in [false, true] {
                for left in [false, true] {
                    let sides = with(above, left, corner);
                    let permitted = [0, 1, 2, 3, 4, 255].map(|it| predicted(&sides, it).is_some());
                    let all = above && left && corner;
                    assert_eq!(permitted, [true, left, above, all, false, false]);
                }
            }
        }
    }

    /// The parts by rows. Above 100 and 501, left 11 and 807: the means of both are
    /// (100+11+4)/8 = 14 and (501+807+4)/8 = 164; alone (100+2)/4 = 25, (501+2)/4 =
    /// 125, (11+2)/4 = 3 and (807+2)/4 = 202.
    #[test]
    fn each_part_has_its_mean() {
        let parts = |above, left| {
            let samples = dc(&with(above, left, true));
            let parts = [0, 4, 32, 36].map(|first| samples[first]);
            for (place, sample) in samples.into_iter().enumerate() {
                assert_eq!(sample, parts[place / 32 * 2 + place % 8 / 4]);
            }
            parts
        };
        assert_eq!(parts(true, true), [14, 125, 202, 164]);
        assert_eq!(parts(true, false), [25, 125, 25, 125]);
        assert_eq!(parts(false, true), [3, 3, 202, 202]);
        assert_eq!(parts(false, false), [128; 4]);
    }

    #[test]
    fn vertical_and_horizontal() {
        let (horizontal, vertical) = (predicted(&ALL, 1).unwrap(), predicted(&ALL, 2).unwrap());
        for place in 0..64 {
            assert_eq!(horizontal[place], LEFT[place / 8]);
            assert_eq!(vertical[place], ABOVE[place % 8]);
        }
    }

    /// With p = 40 + 3x + 5y (the corner at -1, -1) the differences are 3 * (2k + 2),
    /// H = 6 * (1+4+9+16) = 180 and b = (6120+32)>>6 = 96, that is 3 in 32nds; V =
    /// 300, c = (10200+32)>>6 = 159. a = 16 * ((40-3+35) + (40+21-5)) = 2048.
    #[test]
    fn a_plane_by_hand() {
        let p = |x: i32, y: i32| (40 + 3 * x + 5 * y) as u8;
        let above = std::array::from_fn(|x| p(x as i32, -1));
        let left = std::array::from_fn(|y| p(-1, y as i32));
        for (place, sample) in plane(above, left, p(-1, -1)).into_iter().enumerate() {
            let (x, y) = (place as i32 % 8, place as i32 / 8);
            let expected = (2048 + 96 * (x - 3) + 159 * (y - 3) + 16) >> 5;
            assert_eq!(i32::from(sample), expected);
            assert!((expected - i32::from(p(x, y))).abs() <= 1);
        }
    }

    /// The corner has weight 4 in each sum; halves go down where a slope falls, and
    /// samples are clipped.
    #[test]
    fn a_plane_is_clipped_and_rounds_down() {
        // H = V = -4 * 255 = -1020, b = c = (-34680+32)>>6 = -542, which is -541.375
        // rounded down, a = 0.
        let down = plane([0; 8], [0; 8], 255);
        assert_eq!(down[0], ((2 * 3 * 542 + 16) >> 5) as u8);
        assert_eq!(down[8 * 3 + 4], 0);
        let (mut above, mut left) = ([0; 8], [0; 8]);
        above[4..].fill(255);
        left[4..].fill(255);
        // H = V = 10 * 255 = 2550, b = c = (86700+32)>>6 = 1355, a = 8160.
        let up = plane(above, left, 0);
        assert_eq!(
            [up[0], up[63]],
            [((8160 - 2 * 3 * 1355 + 16) >> 5) as u8, 255]
        );
    }

    #[test]
    fn one_mode_for_both() {
        let costs = |cb, cr| ChromaSads([cb, cr].map(|costs: [u32; 4]| costs.map(Some)));
        // Cb alone would have 1, and Cr alone 2.
        assert_eq!(costs([9, 1, 8, 5], [9, 8, 1, 3]).best(), 3);
        assert_eq!(costs([9, 1, 8, 5], [9, 8, 1, 4]).best(), 1);
        let mut lacking = costs([9, 1, 8, 5], [9, 8, 1, 4]);
        lacking.0[0][1] = None;
        lacking.0[1][1] = None;
        assert_eq!(lacking.best(), 2);
        assert_eq!(ChromaSads([[Some(5), None, None, None]; 2]).best(), 0);
    }
}
