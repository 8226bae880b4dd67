//! The quality sheet of a rebuilt plane (request 09 of document 02).

use crate::record::test_size;
use crate::Refusal;

/// Mean absolute error, mean squared error and mean signed error (rebuilt less
/// original) into `out`, over the samples of the macroblocks that the map calls
/// present. Whether there is a sheet: with nothing present there is none, and
/// nothing is written. Refusals: SIZE, LENGTH, FLAGS.
pub fn quality_sheet(
    width: usize,
    height: usize,
    original: &[u8],
    rebuilt: &[u8],
    map: &[u8],
    out: &mut [f64],
) -> Result<bool, Refusal> {
    test_size(width, height)?;
    let samples = 256 * width * height;
    let lengths = [original.len(), rebuilt.len(), map.len(), out.len()];
    if lengths != [samples, samples, width * height, 3] {
        return Err(Refusal::LENGTH);
    }
    if let Some(place) = map.iter().position(|&byte| byte > 1) {
        return Err(Refusal::flags(place));
    }

    // over the plane's rows, each sample asking for its own macroblock
    let present = |place: &usize| {
        let (x, y) = (place % (16 * width), place / (16 * width));
        map[y / 16 * width + x / 16] == 1
    };
    let errors: Vec<i64> = (0..samples)
        .filter(present)
        .map(|place| i64::from(rebuilt[place]) - i64::from(original[place]))
        .collect();
    if errors.is_empty() {
        return Ok(false);
    }
    let mean =
        |of: fn(i64) -> i64| nearest(errors.iter().map(|&error| of(error)).sum(), errors.len());
    out.copy_from_slice(&[
        mean(i64::abs),
        mean(|error| error * error),
        mean(|error| error),
    ]);
    Ok(true)
}

/// The double nearest to a fraction, at a tie the one whose last digit is even:
/// by whole numbers alone, so that nothing rests on how this machine divides.
/// Sums and counts of a picture have few digits; no double here is too small
/// for all 53.
fn nearest(sum: i64, count: usize) -> f64 {
    let (size, count) = (u128::from(sum.unsigned_abs()), count as u128);
    if size == 0 {
        return 0.0;
    }
    // the quotient's first 53 digits, and what is left
    let shift = (0..127)
        .find(|shift| size << shift >= count << 52)
        .expect("neither has more than 64 digits");
    let (quotient, rest) = ((size << shift) / count, (size << shift) % count);
    assert!(
        quotient < 1 << 53,
        "the fraction has more digits before the point than a double"
    );
    let up = 2 * rest > count || 2 * rest == count && quotient % 2 == 1;
    // both are doubles, and a power of two divides without loss
    let value = (quotient + u128::from(up)) as f64 / (1_u128 << shift) as f64;
    if sum < 0 {
        -value
    } else {
        value
    }
}
