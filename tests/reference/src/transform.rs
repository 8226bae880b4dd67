//! The 4x4 and 2x2 transforms (clause 8.5) and the zigzag order. All blocks
//! are in raster order.

/// The raster place that each step of the zigzag visits.
pub(crate) const ZIGZAG: [usize; 16] = [0, 1, 4, 8, 5, 2, 3, 6, 9, 12, 13, 10, 7, 11, 14, 15];

/// A raster block read in zigzag order.
pub(crate) fn to_zigzag<T: Copy>(raster: &[T; 16]) -> [T; 16] {
    ZIGZAG.map(|place| raster[place])
}

/// A zigzag list put back into raster order.
pub(crate) fn from_zigzag<T: Copy + Default>(zigzag: &[T; 16]) -> [T; 16] {
    let mut raster = [T::default(); 16];
    for (&value, place) in zigzag.iter().zip(ZIGZAG) {
        raster[place] = value;
    }
    raster
}

/// Transforms each row, then each column.
fn rows_then_columns(block: &[i32; 16], line: impl Fn([i32; 4]) -> [i32; 4]) -> [i32; 16] {
    let mut result = *block;
    for row in 0..4 {
        let at = |k: usize| 4 * row + k;
        let done = line([0, 1, 2, 3].map(|k| result[at(k)]));
        for (k, value) in done.into_iter().enumerate() {
            result[at(k)] = value;
        }
    }
    for column in 0..4 {
        let at = |k: usize| 4 * k + column;
        let done = line([0, 1, 2, 3].map(|k| result[at(k)]));
        for (k, value) in done.into_iter().enumerate() {
            result[at(k)] = value;
        }
    }
    result
}

/// The forward transform C X C-transposed.
pub(crate) fn forward(residual: &[i32; 16]) -> [i32; 16] {
    rows_then_columns(residual, |[x0, x1, x2, x3]| {
        let outer_sum = x0 + x3;
        let inner_sum = x1 + x2;
        let outer_difference = x0 - x3;
        let inner_difference = x1 - x2;
        [
            outer_sum + inner_sum,
            2 * outer_difference + inner_difference,
            outer_sum - inner_sum,
            outer_difference - 2 * inner_difference,
        ]
    })
}

/// The inverse transform with its final rounding: rescaled values to
/// residuals. The halvings lose a bit, so rows must come before columns.
///
/// The inputs have 16 bits, and each of the two passes adds at most four
/// values, so the sums are exact in 32 bits.
pub(crate) fn inverse(rescaled: &[i16; 16]) -> [i32; 16] {
    rows_then_columns(&rescaled.map(i32::from), |[w0, w1, w2, w3]| {
        let e = w0 + w2;
        let g = w0 - w2;
        let k = (w1 >> 1) - w3;
        let m = w1 + (w3 >> 1);
        [e + m, g + k, g - k, e - m]
    })
    .map(|value| (value + 32) >> 6)
}

/// The 4x4 Hadamard transform H W H of the luma DC path.
///
/// The inputs have 16 bits, and a result is the sum of 16 of them with signs.
pub(crate) fn hadamard(block: &[i32; 16]) -> [i32; 16] {
    rows_then_columns(block, |[w0, w1, w2, w3]| {
        [
            w0 + w1 + w2 + w3,
            w0 + w1 - w2 - w3,
            w0 - w1 - w2 + w3,
            w0 - w1 + w2 - w3,
        ]
    })
}

/// The 2x2 transform of the chroma DC path.
pub(crate) fn hadamard_2x2(&[a, b, c, d]: &[i32; 4]) -> [i32; 4] {
    [a + b + c + d, a - b + c - d, a + b - c - d, a - b - c + d]
}

#[cfg(test)]
mod tests {
    use super::*;

    const C: [[i32; 4]; 4] = [[1, 1, 1, 1], [2, 1, -1, -2], [1, -1, -1, 1], [1, -2, 2, -1]];
    const H: [[i32; 4]; 4] = [[1, 1, 1, 1], [1, 1, -1, -1], [1, -1, -1, 1], [1, -1, 1, -1]];

    fn square(block: &[i32; 16]) -> [[i32; 4]; 4] {
        std::array::from_fn(|row| std::array::from_fn(|column| block[4 * row + column]))
    }

    fn flat(matrix: &[[i32; 4]; 4]) -> [i32; 16] {
        std::array::from_fn(|place| matrix[place / 4][place % 4])
    }

    fn transposed(m: &[[i32; 4]; 4]) -> [[i32; 4]; 4] {
        std::array::from_fn(|row| std::array::from_fn(|column| m[column][row]))
    }

    fn product(l: &[[i32; 4]; 4], r: &[[i32; 4]; 4]) -> [[i32; 4]; 4] {
        std::array::from_fn(|row| {
            std::array::from_fn(|column| (0..4).map(|k| l[row][k] * r[k][column]).sum())
        })
    }

    /// Blocks without any pattern; the numbers of a small linear generator.
    fn blocks(bound: i32) -> impl Iterator<Item = [i32; 16]> {
        let mut state = 1_u32;
        std::iter::repeat_with(move || {
            std::array::from_fn(|_| {
                state = state.wrapping_mul(1_664_525).wrapping_add(1_013_904_223);
                (state >> 8) as i32 % (2 * bound + 1) - bound
            })
        })
        .take(500)
    }

    #[test]
    fn zigzag_is_a_permutation_and_goes_back() {
        let mut places = ZIGZAG;
        places.sort();
        let raster: [usize; 16] = std::array::from_fn(|place| place);
        assert_eq!(places, raster);
        assert_eq!(to_zigzag(&raster), ZIGZAG);
        assert_eq!(from_zigzag(&ZIGZAG), raster);
    }

    #[test]
    fn forward_is_the_matrix_product() {
        for x in blocks(255) {
            let y = product(&product(&C, &square(&x)), &transposed(&C));
            assert_eq!(forward(&x), flat(&y));
        }
    }

    #[test]
    fn weighted_way_back_gives_400_times() {
        for x in blocks(255) {
            let mut y = forward(&x);
            for (place, value) in y.iter_mut().enumerate() {
                *value *= match (place / 4 % 2, place % 4 % 2) {
                    (0, 0) => 25,
                    (1, 1) => 4,
                    _ => 10,
                };
            }
            let back = product(&product(&transposed(&C), &square(&y)), &C);
            assert_eq!(flat(&back), x.map(|value| 400 * value));
        }
    }

    #[test]
    fn hadamard_is_the_matrix_product_and_goes_back() {
        for w in blocks(4080) {
            let t = product(&product(&H, &square(&w)), &H);
            assert_eq!(hadamard(&w), flat(&t));
            assert_eq!(hadamard(&hadamard(&w)), w.map(|value| 16 * value));
        }
    }

    #[test]
    fn hadamard_2x2_goes_back() {
        assert_eq!(hadamard_2x2(&[1, 10, 100, 1000]), [1111, -909, -1089, 891]);
        let w = [4080, -17, 3, -4080];
        assert_eq!(hadamard_2x2(&hadamard_2x2(&w)), w.map(|value| 4 * value));
    }

    #[test]
    fn inverse_of_dc_alone() {
        for (dc, residual) in [(32, 1), (31, 0), (-32, 0), (-33, -1), (640, 10)] {
            let mut rescaled = [0; 16];
            rescaled[0] = dc;
            assert_eq!(inverse(&rescaled), [residual; 16]);
        }
    }

    #[test]
    fn inverse_takes_rows_first() {
        // Columns first is the same as turning the block, going rows first,
        // and turning it back.
        let turned = |b: &[i16; 16]| -> [i16; 16] { std::array::from_fn(|p| b[p % 4 * 4 + p / 4]) };
        let mut apart = 0;
        for block in blocks(255) {
            let rescaled = block.map(|value| value as i16);
            let rows_first = inverse(&rescaled);
            let other = inverse(&turned(&rescaled));
            let columns_first: [i32; 16] = std::array::from_fn(|p| other[p % 4 * 4 + p / 4]);
            apart += i32::from(rows_first != columns_first);
        }
        assert!(apart > 0, "no block tells the two orders apart");

        // One such block by hand. Row 0 becomes four times 32. Row 1 is
        // 0 1 0 1: k = 0-1, m = 1+0, giving 1 -1 1 -1. Then columns 0 and 2
        // are 32 1 0 0, giving 33 32 32 31; columns 1 and 3 are 32 -1 0 0,
        // where -1 >> 1 is -1, giving 31 31 33 33. From 32 on a value rounds
        // to 1. (Columns first would make row 1 all 32.)
        let mut rescaled = [0; 16];
        rescaled[0] = 32;
        rescaled[5] = 1;
        rescaled[7] = 1;
        assert_eq!(
            inverse(&rescaled),
            [1, 0, 1, 0, 1, 0, 1, 0, 1, 1, 1, 1, 0, 1, 0, 1]
        );
    }

    #[test]
    fn extreme_inputs_stay_exact() {
        for extreme in [i16::MIN, i16::MAX] {
            for signs in 0..1_u32 << 16 {
                let rescaled: [i16; 16] = std::array::from_fn(|place| match signs >> place & 1 {
                    0 => extreme,
                    _ => !extreme,
                });
                // Overflow would panic in this build.
                inverse(&rescaled);
            }
        }
    }
}
