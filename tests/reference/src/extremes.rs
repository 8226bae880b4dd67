//! DC levels at the ends of the range, for the programs that hold the library to
//! this reference.

use crate::transform::{hadamard, hadamard_2x2, to_zigzag};
use crate::{Quantizer, Refusal};

/// For a QP: what sums of levels give the rescaled luma values next to the ends of
/// 16 bits, each with that value. The last below, the first in range, the last
/// in range, the first above. QUANTIZER.
pub fn dc_edges(qp: u8) -> Result<[(i32, i64); 4], Refusal> {
    let quantizer = Quantizer::new(qp)?;
    Ok(edges(|sum| quantizer.rescale_luma_dc(sum)))
}

/// The same of chroma, for its quantizer. QUANTIZER.
pub fn chroma_dc_edges(quantizer: u8) -> Result<[(i32, i64); 4], Refusal> {
    let quantizer = Quantizer::new(quantizer)?;
    Ok(edges(|sum| quantizer.rescale_chroma_dc(sum)))
}

/// No value is below that of a smaller sum.
fn edges(value: impl Fn(i32) -> i64) -> [(i32, i64); 4] {
    let above = (0..).find(|&sum| value(sum) > 32767);
    let below = (0..).find(|&sum| value(-sum) < -32768);
    let (above, below) = above.zip(below).expect("larger sums have larger values");
    let sums = [-below, 1 - below, above - 1, above];
    sums.map(|sum| (sum, value(sum)))
}

/// Levels, in zigzag order, that add up to this sum at a raster place, and at
/// every other place to less than 16 on either side of 0.
pub fn dc_levels_at(place: usize, sum: i32) -> [i16; 16] {
    let mut alone = [0; 16];
    alone[place] = 1;
    to_zigzag(&shared(hadamard(&alone), sum))
}

/// Of chroma: levels, by rows, that add up to this sum at a place, and at every
/// other place to less than 4 on either side of 0.
pub fn chroma_dc_levels_at(place: usize, sum: i32) -> [i16; 4] {
    let mut alone = [0; 4];
    alone[place] = 1;
    shared(hadamard_2x2(&alone), sum)
}

/// The transform is its own way back: with these signs all levels add up at the
/// place, and equal ones cancel out everywhere else.
fn shared<const N: usize>(signs: [i32; N], sum: i32) -> [i16; N] {
    let count = N as i32;
    let (share, mut rest) = (sum.div_euclid(count), sum.rem_euclid(count));
    signs.map(|sign| {
        let one_more = i32::from(rest > 0);
        rest -= one_more;
        (sign * (share + one_more)) as i16
    })
}

#[cfg(test)]
mod tests {
    use super::*;
    use crate::{chroma_dc_values, rescaled_luma_dc};

    #[test]
    fn edges_are_next_to_the_ends_and_meet_them() {
        let mut met = Vec::new();
        for qp in 0..=51 {
            let values = dc_edges(qp).unwrap().map(|(_, value)| value);
            assert!(values[0] < -32768 && -32768 <= values[1]);
            assert!(values[2] <= 32767 && 32767 < values[3]);
            // The step is 18 * 2^6 at the most.
            assert!(values[1] - values[0] <= 18 << 6 && values[3] - values[2] <= 18 << 6);
            met.extend(values);
        }
        for end in [-32769, -32768, 32767, 32768] {
            assert!(met.contains(&end), "no QP has {end}");
        }
    }

    /// At every chroma quantizer, which is 39 at the most, and at every place.
    #[test]
    fn chroma_levels_add_up_at_their_place() {
        for quantizer in 0..=39 {
            for (sum, value) in chroma_dc_edges(quantizer).unwrap() {
                for place in 0..4 {
                    let levels = chroma_dc_levels_at(place, sum).map(i32::from);
                    let mut values = [0; 4];
                    let answer = chroma_dc_values(quantizer, &levels, &mut values);
                    match i16::try_from(value) {
                        Ok(value) => assert_eq!((answer, values[place]), (Ok(()), value.into())),
                        Err(_) => assert_eq!(answer, Err(Refusal::range(place))),
                    }
                }
            }
        }
    }

    #[test]
    fn levels_add_up_at_their_place() {
        for qp in 0..=51 {
            for (sum, value) in dc_edges(qp).unwrap() {
                for place in 0..16 {
                    let values = rescaled_luma_dc(qp, &dc_levels_at(place, sum)).unwrap();
                    assert_eq!(values[place], value);
                    let others = (0..16).filter(|&other| other != place);
                    let largest = others.map(|other| values[other].abs()).max();
                    assert!(largest.is_some_and(|largest| largest < 32767));
                }
            }
        }
    }
}
