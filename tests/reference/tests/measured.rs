//! The measured pieces of document 01, through the entry points.

use reference::record::Layout;
use reference::{
    choose, chroma_dc_levels, chroma_dc_values, chroma_quantizer, code_block, forward, levels,
    luma_dc_levels, luma_dc_values, predict, rebuild, rebuild_with_dc, record, Choice, Mode,
    Quantizer, Refusal,
};

const QUANTIZER: Refusal = Refusal {
    number: 2,
    place: 0,
};

#[test]
fn qp_51_is_accepted_and_52_refused() {
    assert!(Quantizer::new(51).is_ok());
    assert_eq!(Quantizer::new(52), Err(QUANTIZER));
    assert_eq!(levels(51, &[0; 16], &mut [0; 16]), Ok(()));
    assert_eq!(levels(52, &[0; 16], &mut [0; 16]), Err(QUANTIZER));
}

#[test]
fn level_3276_is_the_last_in_range_at_qp_0() {
    let mut block = [0; 16];
    block[0] = 3276;
    let mut out = [0; 16];
    assert_eq!(rebuild(0, &[0; 16], &block, &mut out), Ok(()));
    // 32760 rounds to 512, far above white.
    assert_eq!(out, [255; 16]);
    block[0] = 3277;
    let range = Refusal {
        number: 6,
        place: 0,
    };
    assert_eq!(rebuild(0, &[0; 16], &block, &mut out), Err(range));
}

#[test]
fn ones_transform_to_16_alone() {
    let mut coefficients = [7; 16];
    assert_eq!(forward(&[1; 16], &mut coefficients), Ok(()));
    let mut expected = [0; 16];
    expected[0] = 16;
    assert_eq!(coefficients, expected);
}

#[test]
fn dc_of_32_alone_rounds_up() {
    for (dc, sample) in [(32, 101), (-32, 100), (-33, 99)] {
        let mut out = [0; 16];
        assert_eq!(
            rebuild_with_dc(28, &[100; 16], dc, &[0; 15], &mut out),
            Ok(())
        );
        assert_eq!(out, [sample; 16]);
    }
}

#[test]
fn qp_28_class_a_turns_at_43() {
    // Residuals whose first coefficient, their sum, is 42, 43 and -43.
    for (sum, level) in [(42_i32, 0), (43, 1), (-43, -1)] {
        let mut residual = [sum / 16; 16];
        for value in residual.iter_mut().take((sum % 16).unsigned_abs() as usize) {
            *value += sum.signum();
        }
        let mut result = [7; 16];
        assert_eq!(levels(28, &residual, &mut result), Ok(()));
        assert_eq!(result[0], level, "sum {sum}");
    }
}

#[test]
fn down_left_with_and_without_the_upper_right() {
    let neighbours = [0, 10, 20, 30, 40, 50, 60, 70, 80, 0, 0, 0, 0];
    let mut out = [0; 16];
    assert_eq!(predict(&neighbours, 0b1001, 3, &mut out), Ok(()));
    assert_eq!([out[0], out[15]], [20, 78]);
    assert_eq!(predict(&neighbours, 0b0001, 3, &mut out), Ok(()));
    assert_eq!([out[0], out[15]], [20, 40]);
}

#[test]
fn horizontal_up_ends_in_the_last_sample() {
    let neighbours = [0, 0, 0, 0, 0, 0, 0, 0, 0, 10, 20, 30, 41];
    let mut out = [0; 16];
    assert_eq!(predict(&neighbours, 0b0010, 8, &mut out), Ok(()));
    let at = |x: usize, y: usize| out[4 * y + x];
    assert_eq!([at(1, 2), at(2, 2)], [38, 41]);
}

#[test]
fn luma_dc_of_160_at_qp_28() {
    let mut result = [7; 16];
    assert_eq!(luma_dc_levels(28, &[160; 16], &mut result), Ok(()));
    let mut expected = [0; 16];
    expected[0] = 10;
    assert_eq!(result, expected);
    let mut values = [0; 16];
    assert_eq!(luma_dc_values(28, &result, &mut values), Ok(()));
    assert_eq!(values, [640; 16]);
}

#[test]
fn chroma_dc_of_160_at_qp_28() {
    let mut result = [7; 4];
    assert_eq!(chroma_dc_levels(28, &[160; 4], &mut result), Ok(()));
    assert_eq!(result, [5, 0, 0, 0]);
    let mut values = [0; 4];
    assert_eq!(chroma_dc_values(28, &result, &mut values), Ok(()));
    assert_eq!(values, [640; 4]);
}

#[test]
fn chroma_quantizer_pieces() {
    assert_eq!(chroma_quantizer(29, 0), Ok(29));
    assert_eq!(chroma_quantizer(30, 0), Ok(29));
    assert_eq!(chroma_quantizer(51, 12), Ok(39));
    assert_eq!(chroma_quantizer(0, -12), Ok(0));
}

#[test]
fn chroma_quantizer_whole_range() {
    let table = [
        29, 30, 31, 32, 32, 33, 34, 34, 35, 35, 36, 36, 37, 37, 37, 38, 38, 38, 39, 39, 39, 39,
    ];
    for qp in 0..=51_u8 {
        for offset in -12..=12 {
            let index = (i32::from(qp) + offset).clamp(0, 51);
            let expected = if index < 30 {
                index as u8
            } else {
                table[index as usize - 30]
            };
            assert_eq!(chroma_quantizer(qp, offset), Ok(expected));
        }
    }
}

const SIZE: Refusal = Refusal {
    number: 8,
    place: 0,
};

#[test]
fn head_of_a_1x1_picture() {
    let head = |width, height| record::head(Layout::one_slice(width, height));
    let expected = [0x48, 0x44, 0x00, 0x01, 0x00, 0x01, 0x00, 0x8E];
    assert_eq!(head(1, 1), Ok(expected.to_vec()));
    for (width, height) in [(0, 1), (1, 0), (129, 1), (1, 129), (usize::MAX, 1)] {
        assert_eq!(head(width, height), Err(SIZE));
    }
    assert!(head(128, 128).is_ok());
}

/// By hand: 48 53, 1, 2, 1 add up to 159.
#[test]
fn head_of_two_slices() {
    let head = |height, rows| {
        record::head(Layout {
            width: 1,
            height,
            rows,
        })
    };
    let expected = [0x48, 0x53, 0x00, 0x01, 0x00, 0x02, 0x00, 0x01, 0x00, 0x9F];
    assert_eq!(head(2, 1), Ok(expected.to_vec()));
    let one_slice = [0x48, 0x44, 0x00, 0x01, 0x00, 0x02, 0x00, 0x8F];
    assert_eq!(head(2, 2), Ok(one_slice.to_vec()));
    for (height, rows) in [(2, 0), (2, 3), (128, 129), (2, 65535), (2, usize::MAX)] {
        assert_eq!(head(height, rows), Err(SIZE));
    }
}

#[test]
fn flat_surroundings_choose_vertical() {
    let choice = Choice {
        mode: Mode::Vertical,
        sad: 0,
    };
    let mut prediction = [0; 16];
    assert_eq!(
        choose(&[100; 13], 15, &[100; 16], &mut prediction),
        Ok(choice)
    );
    assert_eq!(prediction, [100; 16]);

    let mut levels = [7; 16];
    let mut rebuilt = [0; 16];
    assert_eq!(
        code_block(28, 15, &[100; 13], &[100; 16], &mut levels, &mut rebuilt),
        Ok(choice)
    );
    assert_eq!(levels, [0; 16]);
    assert_eq!(rebuilt, [100; 16]);
}

#[test]
fn blockprint_example() {
    let mut levels = [7; 16];
    let mut rebuilt = [0; 16];
    let choice = Choice {
        mode: Mode::Dc,
        sad: 160,
    };
    assert_eq!(
        code_block(28, 0, &[77; 13], &[138; 16], &mut levels, &mut rebuilt),
        Ok(choice)
    );
    let mut expected = [0; 16];
    expected[0] = 2;
    assert_eq!(levels, expected);
    assert_eq!(rebuilt, [136; 16]);
}
