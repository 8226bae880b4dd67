//! Red, green and blue to planes of 4:2:0 and back, in whole numbers: BT.601, full range (0 to 255).
//!
//! To planes, R, G and B of a sample for luma, and their sums over a square of 2x2 samples for chroma, so that each is rounded once:
//!
//! ```text
//! Y  = (19595 R + 38470 G + 7471 B + 2^15) >> 16
//! Cb = 128 + ((-11058 R - 21710 G + 32768 B + 2^17) >> 18), at most 255
//! Cr = 128 + (( 32768 R - 27439 G -  5329 B + 2^17) >> 18), at most 255
//! ```
//!
//! And back, where the four samples of a square have the same Cb and Cr, u = Cb - 128 and v = Cr - 128, each clipped to 0 to 255:
//!
//! ```text
//! R = Y + ((  91881 v           + 2^15) >> 16)
//! G = Y + (( -22554 u - 46802 v + 2^15) >> 16)
//! B = Y + (( 116130 u           + 2^15) >> 16)
//! ```
//!
//! Shifts round down. The numbers are the standard's, times 2^16 and rounded. What is grey stays as it is.

/// Luma, Cb and Cr of a picture whose width and height are even.
pub fn to_planes(samples: &[u8], width: usize, height: usize) -> [Vec<u8>; 3] {
    let luma = samples.chunks_exact(3).map(|pixel| shifted(weighed([19595, 38470, 7471], |part| i32::from(pixel[part])), 16));
    let (mut cb, mut cr) = (Vec::with_capacity(samples.len() / 12), Vec::with_capacity(samples.len() / 12));
    let row = 3 * width.max(1);
    for pair in samples.chunks_exact(2 * row).take(height / 2) {
        let (above, below) = pair.split_at(row);
        for (up, down) in above.chunks_exact(6).zip(below.chunks_exact(6)) {
            let sum = |part: usize| [up[part], up[part + 3], down[part], down[part + 3]].map(i32::from).iter().sum();
            cb.push(shifted(weighed([-11058, -21710, 32768], sum) + (128 << 18), 18));
            cr.push(shifted(weighed([32768, -27439, -5329], sum) + (128 << 18), 18));
        }
    }
    [luma.collect(), cb, cr]
}

/// Red, green and blue times their weights.
fn weighed(weights: [i32; 3], part: impl Fn(usize) -> i32) -> i32 {
    weights[0] * part(0) + weights[1] * part(1) + weights[2] * part(2)
}

/// Divided by a power of two, halves up, and clipped to a sample.
fn shifted(number: i32, bits: u32) -> u8 {
    ((number + (1 << (bits - 1))) >> bits).clamp(0, 255) as u8
}

/// Red, green and blue by rows, of planes of a picture with this width.
pub fn to_samples(luma: &[u8], cb: &[u8], cr: &[u8], width: usize) -> Vec<u8> {
    let columns = width.max(2);
    let mut samples = Vec::with_capacity(3 * luma.len());
    for (number, row) in luma.chunks(columns).enumerate() {
        let begin = number / 2 * (columns / 2);
        let chroma = cb.iter().skip(begin).zip(cr.iter().skip(begin));
        for (pair, (&cb, &cr)) in row.chunks(2).zip(chroma) {
            let (u, v) = (i32::from(cb) - 128, i32::from(cr) - 128);
            let parts = [91881 * v, -22554 * u - 46802 * v, 116130 * u];
            for &light in pair {
                samples.extend(parts.map(|part| shifted((i32::from(light) << 16) + part, 16)));
            }
        }
    }
    samples
}
