//! `code_block` against the pieces it is made of.

use reference::{choose, code_block, levels, rebuild};

#[test]
fn code_block_is_choose_levels_rebuild() {
    let mut state = 5_u64;
    let mut byte = || {
        state = state
            .wrapping_mul(6_364_136_223_846_793_005)
            .wrapping_add(1_442_695_040_888_963_407);
        (state >> 56) as u8
    };
    for qp in 0..=51 {
        for flags in 0..16 {
            for extreme in [false, true] {
                let mut sample = || match (extreme, byte()) {
                    (true, byte) => byte / 128 * 255,
                    (false, byte) => byte,
                };
                let neighbours: [u8; 13] = std::array::from_fn(|_| sample());
                let samples: [u8; 16] = std::array::from_fn(|_| sample());

                let mut prediction = [0; 16];
                let choice = choose(&neighbours, flags, &samples, &mut prediction).unwrap();
                let residual: [i32; 16] =
                    std::array::from_fn(|k| i32::from(samples[k]) - i32::from(prediction[k]));
                let mut block = [0; 16];
                levels(qp, &residual, &mut block).unwrap();
                let mut out = [0; 16];
                rebuild(qp, &prediction, &block, &mut out).unwrap();

                let mut coded = [0; 16];
                let mut rebuilt = [0; 16];
                assert_eq!(
                    code_block(qp, flags, &neighbours, &samples, &mut coded, &mut rebuilt),
                    Ok(choice)
                );
                assert_eq!(coded, block);
                assert_eq!(rebuilt, out);
                if qp == 0 {
                    // The finest quantizer hardly changes a sample.
                    for (old, new) in samples.iter().zip(rebuilt) {
                        assert!(old.abs_diff(new) <= 1);
                    }
                }
            }
        }
    }
}

/// The coder relies on its own levels rescaling into 16 bits. A coefficient is
/// largest for the residual that follows the signs of its basis pattern.
#[test]
fn largest_coefficients_come_back() {
    const C: [[i32; 4]; 4] = [[1, 1, 1, 1], [2, 1, -1, -2], [1, -1, -1, 1], [1, -2, 2, -1]];
    for qp in 0..=51 {
        for down in C {
            for across in C {
                for size in [-255, 255] {
                    let residual: [i32; 16] = std::array::from_fn(|place| {
                        size * (down[place / 4] * across[place % 4]).signum()
                    });
                    let mut block = [0; 16];
                    levels(qp, &residual, &mut block).unwrap();
                    assert_eq!(rebuild(qp, &[128; 16], &block, &mut [0; 16]), Ok(()));
                }
            }
        }
    }
}
