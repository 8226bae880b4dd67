//! What the tests of the wrapper share.
#![allow(dead_code)]

use fleecebutton::*;

/// Numbers below a count, the same in every run.
pub fn noise(seed: u32) -> impl FnMut(u32) -> u32 {
    let mut state = 0x5EED ^ seed;
    move |count| {
        state = state.wrapping_mul(1664525).wrapping_add(1013904223);
        ((u64::from(state >> 8) * u64::from(count)) >> 24) as u32
    }
}

/// Samples of which no macroblock is predicted better as a whole.
pub fn busy(samples: usize, seed: u32) -> Vec<u8> {
    let mut random = noise(seed);
    (0..samples).map(|_| random(256) as u8).collect()
}

/// A busy picture's file, all of whose records are of 4x4.
pub fn coded(layout: Layout, qp: u8) -> CodedPlane {
    let coded = code_plane(layout, qp, &busy(layout.samples(), 1)).unwrap();
    assert_eq!(coded.file.len(), layout.file_area(), "every record is of 4x4");
    coded
}

/// The same in colour.
pub fn coloured(width: usize, height: usize) -> CodedPicture {
    let layout = Layout::one_slice(width, height);
    let coding = Coding { layout, qp: 28, cb_offset: 0, cr_offset: 0 };
    let [luma, cb, cr] =
        [(layout.samples(), 1), (layout.chroma_samples(), 2), (layout.chroma_samples(), 3)].map(|(samples, seed)| busy(samples, seed));
    let coded = code_picture(coding, Planes { luma: &luma, cb: &cb, cr: &cr }).unwrap();
    assert_eq!(coded.file.len(), layout.colour_file_area(), "every luma record is of 4x4");
    coded
}

/// Gives every whole record the sum of its bytes, so that its content is looked at.
pub fn resummed(file: &mut [u8]) {
    let found: Vec<(usize, usize)> = Records::of(file).map(|record| (record.place(), record.bytes().len())).collect();
    for (place, length) in found {
        let record = &mut file[place..place + length];
        let sum = record[..length - 2].iter().fold(0u16, |sum, byte| sum.wrapping_add(u16::from(*byte)));
        record[length - 2..].copy_from_slice(&sum.to_be_bytes());
    }
}
