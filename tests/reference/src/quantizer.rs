//! The quantizer: its bounds, its split, its tables, and quantizing and
//! rescaling of single values.

use crate::Refusal;

/// A quantizer number from 0 to 51, split into its period and remainder.
#[derive(Clone, Copy, Debug, PartialEq, Eq)]
pub struct Quantizer {
    period: u32,
    remainder: usize,
}

/// The class of a place in a 4x4 block by the parity of its row and column.
#[derive(Clone, Copy, Debug, PartialEq, Eq)]
pub(crate) enum Class {
    /// Row and column even.
    A,
    /// Row and column odd.
    B,
    /// The rest.
    C,
}

/// The class of each place in raster order.
pub(crate) const CLASS: [Class; 16] = {
    use Class::{A, B, C};
    [A, C, A, C, C, B, C, B, A, C, A, C, C, B, C, B]
};

/// Multipliers of the coder by remainder and class (document 003).
const MF: [[i64; 3]; 6] = [
    [13107, 5243, 8066],
    [11916, 4660, 7490],
    [10082, 4194, 6554],
    [9362, 3647, 5825],
    [8192, 3355, 5243],
    [7282, 2893, 4559],
];

/// Scales of the decoder by remainder and class (the standard's normAdjust).
const V: [[i64; 3]; 6] = [
    [10, 16, 13],
    [11, 18, 14],
    [13, 20, 16],
    [14, 23, 18],
    [16, 25, 20],
    [18, 29, 23],
];

impl Quantizer {
    pub const MIN: u8 = 0;
    pub const MAX: u8 = 51;

    pub fn new(qp: u8) -> Result<Quantizer, Refusal> {
        if !(Quantizer::MIN..=Quantizer::MAX).contains(&qp) {
            return Err(Refusal::QUANTIZER);
        }
        Ok(Quantizer {
            period: u32::from(qp / 6),
            remainder: usize::from(qp % 6),
        })
    }

    /// What a level of class a, b, c is rescaled by: V times 2^p.
    pub fn scales(self) -> [i64; 3] {
        V[self.remainder].map(|v| v << self.period)
    }

    /// The level of a coefficient. A Hadamard transform in front has made the
    /// coefficient larger by `halvings` powers of two, which are taken out
    /// again here: none for an ordinary block, 1 for chroma DC, 2 for luma DC.
    pub(crate) fn quantize(self, coefficient: i32, class: Class, halvings: u32) -> i32 {
        let mf = MF[self.remainder][class as usize];
        let q = 15 + self.period;
        let f = (1_i64 << q) / 3;
        // The size is rounded, not the signed value, so that a coefficient and
        // its opposite get opposite levels.
        let coefficient = i64::from(coefficient);
        let size = (coefficient.abs() * mf + (f << halvings)) >> (q + halvings);
        (size * coefficient.signum()) as i32
    }

    /// The rescaled value of an ordinary level.
    pub(crate) fn rescale(self, level: i16, class: Class) -> i64 {
        i64::from(level) * self.scales()[class as usize]
    }

    /// The rescaled luma DC value; `g` is a level after the Hadamard transform.
    pub(crate) fn rescale_luma_dc(self, g: i32) -> i64 {
        let scaled = i64::from(g) * V[self.remainder][Class::A as usize];
        match self.period {
            0 => (scaled + 2) >> 2,
            1 => (scaled + 1) >> 1,
            period => scaled << (period - 2),
        }
    }

    /// The rescaled chroma DC value; `g` is a level after the 2x2 transform.
    pub(crate) fn rescale_chroma_dc(self, g: i32) -> i64 {
        let scaled = i64::from(g) * V[self.remainder][Class::A as usize];
        (scaled << self.period) >> 1
    }
}

/// The chroma quantizer that belongs to a luma quantizer. Refusals: QUANTIZER.
pub fn chroma_quantizer(qp: u8, offset: i32) -> Result<u8, Refusal> {
    /// What the indexes from 30 on become (table 8-15).
    const FROM_30: [u8; 22] = [
        29, 30, 31, 32, 32, 33, 34, 34, 35, 35, 36, 36, 37, 37, 37, 38, 38, 38, 39, 39, 39, 39,
    ];

    Quantizer::new(qp)?;
    if !(-12..=12).contains(&offset) {
        return Err(Refusal::QUANTIZER);
    }
    let lowest = i32::from(Quantizer::MIN);
    let highest = i32::from(Quantizer::MAX);
    let index = (i32::from(qp) + offset).clamp(lowest, highest) as u8;
    Ok(match index {
        0..=29 => index,
        _ => FROM_30[usize::from(index) - 30],
    })
}

/// So many whole samples, at the most, is a rebuilt sample of a 4x4 block
/// without a DC path off (document 02, request 07). Refusals: QUANTIZER.
pub fn promised_distance(qp: u8) -> Result<u64, Refusal> {
    let [a, b, c] = Quantizer::new(qp)?.scales();
    Ok(((16 * a + 24 * c + 9 * b + 384) / 384) as u64)
}

#[cfg(test)]
mod tests {
    use super::*;

    #[test]
    fn classes_follow_the_parities() {
        for (place, class) in CLASS.into_iter().enumerate() {
            let expected = match (place / 4 % 2, place % 4 % 2) {
                (0, 0) => Class::A,
                (1, 1) => Class::B,
                _ => Class::C,
            };
            assert_eq!(class, expected, "place {place}");
        }
    }

    /// MF * V is 2^21 times a constant of the class: a^4, b^4/4 and a^2*b^2/2
    /// with a = 1/2 and b^2 = 2/5. A slip in either table would show here.
    #[test]
    fn tables_fit_each_other() {
        for remainder in 0..6 {
            for (class, one_part_in) in [(Class::A, 16), (Class::B, 25), (Class::C, 20)] {
                let product = MF[remainder][class as usize] * V[remainder][class as usize];
                let ideal = (1 << 21) / one_part_in;
                assert!(
                    (product - ideal).abs() * 1000 < ideal,
                    "remainder {remainder}, {class:?}: {product} for {ideal}"
                );
            }
        }
    }

    #[test]
    fn qp_28_class_a_turns_at_43() {
        let quantizer = Quantizer::new(28).unwrap();
        let level = |y| quantizer.quantize(y, Class::A, 0);
        assert_eq!([level(42), level(43)], [0, 1]);
        assert_eq!([level(-42), level(-43)], [0, -1]);
        assert_eq!(level(0), 0);
    }

    #[test]
    fn split_is_by_six() {
        for qp in 0..=51 {
            let quantizer = Quantizer::new(qp).unwrap();
            assert_eq!(
                6 * quantizer.period as usize + quantizer.remainder,
                usize::from(qp)
            );
            assert!(quantizer.remainder < 6);
        }
    }

    #[test]
    fn rescaled_negatives_round_down() {
        // g*Va = -10, -11: (-10+2)>>2 and (-11+1)>>1, (-11*2)>>1.
        assert_eq!(Quantizer::new(0).unwrap().rescale_luma_dc(-1), -2);
        assert_eq!(Quantizer::new(7).unwrap().rescale_luma_dc(-1), -5);
        assert_eq!(Quantizer::new(7).unwrap().rescale_chroma_dc(-1), -11);
        assert_eq!(Quantizer::new(1).unwrap().rescale_chroma_dc(-1), -6);
    }

    /// Clause 8.5.10 works with scales 16 times as large and switches at
    /// QP 36; document 01 has divided the 16 out. Both must say the same.
    #[test]
    fn dc_rescaling_is_the_standards() {
        for qp in 0..=51 {
            let quantizer = Quantizer::new(qp).unwrap();
            let scale = 16 * V[quantizer.remainder][0];
            let period = quantizer.period;
            for g in (-70_000..=70_000).step_by(7) {
                let wide = i64::from(g) * scale;
                let luma = if qp >= 36 {
                    wide << (period - 6)
                } else {
                    (wide + (1 << (5 - period))) >> (6 - period)
                };
                assert_eq!(quantizer.rescale_luma_dc(g), luma);
                assert_eq!(quantizer.rescale_chroma_dc(g), (wide << period) >> 5);
            }
        }
    }
}
