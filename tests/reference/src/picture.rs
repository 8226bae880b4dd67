//! Pictures in colour: three planes, coded into a record file and decoded again
//! (request 05 of document 02).

use crate::chroma::ChromaSads;
use crate::record::{self, Chroma, Layout, Macroblock};
use crate::{chroma_quantizer, Refusal, Sads};

/// Codes a picture in slices of so many rows: writes the file and the rebuilt
/// planes, and answers how many bytes of the file's area it used. Refusals: SIZE,
/// LENGTH, QUANTIZER.
#[allow(clippy::too_many_arguments)]
pub fn code_picture(
    width: usize,
    height: usize,
    rows: usize,
    qp: u8,
    cb_offset: i32,
    cr_offset: i32,
    luma: &[u8],
    cb: &[u8],
    cr: &[u8],
    file: &mut [u8],
    luma_out: &mut [u8],
    cb_out: &mut [u8],
    cr_out: &mut [u8],
) -> Result<usize, Refusal> {
    let picture = Picture {
        layout: Layout {
            width,
            height,
            rows,
        },
        qp,
        offsets: [cb_offset, cr_offset],
        planes: [luma, cb, cr],
    };
    let rebuilt = [luma_out, cb_out, cr_out];
    code_picture_by(
        Sads::sixteen_wins,
        ChromaSads::best,
        &picture,
        file,
        rebuilt,
    )
}

/// A picture as it is lent; its planes are luma, Cb and Cr.
pub struct Picture<'a> {
    pub layout: Layout,
    pub qp: u8,
    pub offsets: [i32; 2],
    pub planes: [&'a [u8]; 3],
}

/// `code_picture` with other choices between the two kinds of a macroblock and
/// between the permitted modes of its chroma, for tests that want to see them or to
/// have them their own way.
pub fn code_picture_by(
    mut takes_sixteen: impl FnMut(&Sads) -> bool,
    mut chroma_mode: impl FnMut(&ChromaSads) -> u8,
    picture: &Picture,
    file: &mut [u8],
    rebuilt: [&mut [u8]; 3],
) -> Result<usize, Refusal> {
    let Picture {
        layout,
        qp,
        offsets,
        planes: [luma, cb, cr],
    } = *picture;
    layout.test()?;
    let lengths = [
        layout.samples(),
        layout.chroma_samples(),
        layout.chroma_samples(),
    ];
    if [luma, cb, cr].map(<[u8]>::len) != lengths
        || file.len() != layout.colour_area()
        || rebuilt.each_ref().map(|plane| plane.len()) != lengths
    {
        return Err(Refusal::LENGTH);
    }
    // The QP first, with any legal offset.
    for offset in [0, offsets[0], offsets[1]] {
        chroma_quantizer(qp, offset)?;
    }
    let offsets = offsets.map(|offset| offset as i8);

    let [luma_out, cb_out, cr_out] = rebuilt;
    let mut code = |number: usize| {
        let luma = layout.code(number, qp, luma, luma_out, &mut takes_sixteen);
        let here = layout.chroma(number);
        let (sides, samples) = (
            [here.sides(cb_out), here.sides(cr_out)],
            [here.samples(cb), here.samples(cr)],
        );
        let mode = chroma_mode(&ChromaSads::new(&sides, &samples));
        let coded = Chroma::coded(qp, offsets, &sides, mode, &samples);
        let decoded = coded.decoded(qp, &sides).expect("own levels are in range");
        here.store(&decoded[0], cb_out);
        here.store(&decoded[1], cr_out);
        Macroblock {
            chroma: Some(coded),
            ..luma
        }
    };
    let macroblocks: Vec<Macroblock> = (0..layout.macroblocks()).map(&mut code).collect();
    let written = record::file(layout, &macroblocks)?;
    file[..written.len()].copy_from_slice(&written);
    Ok(written.len())
}

/// Decodes a record file and answers whether it is colour; of a mono file the chroma
/// planes keep their bytes. Refusals: those of the head, LENGTH of any of the planes,
/// and those of `accepted`.
pub fn decode_picture(
    file: &[u8],
    luma: &mut [u8],
    cb: &mut [u8],
    cr: &mut [u8],
) -> Result<bool, Refusal> {
    let layout = record::read_head(file)?;
    let chroma = layout.chroma_samples();
    if [luma.len(), cb.len(), cr.len()] != [layout.samples(), chroma, chroma] {
        return Err(Refusal::LENGTH);
    }
    let macroblocks = layout.accepted(file)?;
    let mut colour = false;
    for (number, macroblock) in macroblocks.iter().enumerate() {
        layout.decode(number, macroblock, luma)?;
        if let Some(chroma) = &macroblock.chroma {
            let here = layout.chroma(number);
            let sides = [here.sides(cb), here.sides(cr)];
            let decoded = chroma.decoded(macroblock.qp, &sides)?;
            here.store(&decoded[0], cb);
            here.store(&decoded[1], cr);
            colour = true;
        }
    }
    Ok(colour)
}
