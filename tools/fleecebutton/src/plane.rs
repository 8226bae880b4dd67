//! The functions of planes, pictures and their record files.

use crate::calls::{self, Word};
use crate::fault;
use crate::layout::{Layout, SIDE};
use crate::refusal::number::{DIFFERS, LENGTH, QUANTIZER, SIZE};
use crate::refusal::{Refusal, Words};
use crate::words::{self, Lent};

/// How a colour picture is coded.
#[derive(Clone, Copy, Debug, PartialEq, Eq)]
pub struct Coding {
    /// Its size and slices.
    pub layout: Layout,
    /// 0 to 51.
    pub qp: u8,
    /// Of Cb's quantizer, -12 to 12.
    pub cb_offset: i32,
    /// Of Cr's quantizer, -12 to 12.
    pub cr_offset: i32,
}

/// The planes of a colour picture (4:2:0), each by rows without gaps.
#[derive(Clone, Copy, Debug)]
pub struct Planes<'a> {
    /// 256 samples for each macroblock.
    pub luma: &'a [u8],
    /// 64 samples for each macroblock.
    pub cb: &'a [u8],
    /// 64 samples for each macroblock.
    pub cr: &'a [u8],
}

/// Areas for the planes of a colour picture.
#[derive(Debug)]
pub struct PlanesMut<'a> {
    /// 256 samples for each macroblock.
    pub luma: &'a mut [u8],
    /// 64 samples for each macroblock.
    pub cb: &'a mut [u8],
    /// 64 samples for each macroblock.
    pub cr: &'a mut [u8],
}

/// A plane that was coded.
#[derive(Clone, Debug, PartialEq, Eq)]
pub struct CodedPlane {
    /// The record file.
    pub file: Vec<u8>,
    /// The plane that a decoder rebuilds.
    pub rebuilt: Vec<u8>,
}

/// A colour picture that was coded.
#[derive(Clone, Debug, PartialEq, Eq)]
pub struct CodedPicture {
    /// The record file.
    pub file: Vec<u8>,
    /// The planes that a decoder rebuilds.
    pub luma: Vec<u8>,
    /// Of Cb.
    pub cb: Vec<u8>,
    /// Of Cr.
    pub cr: Vec<u8>,
}

/// The luma plane of a file.
#[derive(Clone, Debug, PartialEq, Eq)]
pub struct DecodedPlane {
    /// What the file's head says.
    pub layout: Layout,
    /// By rows without gaps.
    pub samples: Vec<u8>,
}

/// The planes of a file.
#[derive(Clone, Debug, PartialEq, Eq)]
pub struct DecodedPicture {
    /// What the file's head says.
    pub layout: Layout,
    /// By rows without gaps.
    pub luma: Vec<u8>,
    /// Cb and Cr of a colour file; none of a mono one.
    pub chroma: Option<[Vec<u8>; 2]>,
}

/// Codes a plane. SIZE, LENGTH, QUANTIZER.
pub fn code_plane(layout: Layout, qp: u8, plane: &[u8]) -> Result<CodedPlane, Refusal> {
    let mut file = layout.area(layout.file_area());
    let mut rebuilt = layout.area(layout.samples());
    let used = code_plane_into(layout, qp, plane, &mut file, &mut rebuilt)?;
    file.truncate(used);
    Ok(CodedPlane { file, rebuilt })
}

/// The same into lent areas, of [`Layout::file_area`] bytes and [`Layout::samples`]; answers how many bytes of the first are the file.
pub fn code_plane_into(layout: Layout, qp: u8, plane: &[u8], file: &mut [u8], rebuilt: &mut [u8]) -> Result<usize, Refusal> {
    let lengths = [
        Lent::samples("the plane", plane.len(), layout.samples()),
        Lent::bytes("the area for the file", file.len(), layout.file_area()),
        Lent::samples("the area for the rebuilt plane", rebuilt.len(), layout.samples()),
    ];
    let Layout { width, height, rows } = layout;
    let word = calls::code_plane(width, height, rows, qp, plane, file, rebuilt);
    let used = word.value(|number, place| match number {
        SIZE => words::size("the picture is given as of", layout),
        LENGTH => words::length(layout, &lengths),
        QUANTIZER => words::qp(qp),
        _ => words::unknown(place),
    })?;
    Ok(used as usize)
}

/// Codes a colour picture. SIZE, LENGTH, QUANTIZER.
pub fn code_picture(coding: Coding, planes: Planes) -> Result<CodedPicture, Refusal> {
    let layout = coding.layout;
    let mut file = layout.area(layout.colour_file_area());
    let mut luma = layout.area(layout.samples());
    let [mut cb, mut cr] = [(), ()].map(|()| layout.area(layout.chroma_samples()));
    let rebuilt = PlanesMut { luma: &mut luma, cb: &mut cb, cr: &mut cr };
    let used = code_picture_into(coding, planes, &mut file, rebuilt)?;
    file.truncate(used);
    Ok(CodedPicture { file, luma, cb, cr })
}

/// The same into lent areas, of [`Layout::colour_file_area`] bytes, [`Layout::samples`] and twice [`Layout::chroma_samples`]; answers how
/// many bytes of the first are the file.
pub fn code_picture_into(coding: Coding, planes: Planes, file: &mut [u8], rebuilt: PlanesMut) -> Result<usize, Refusal> {
    let Coding { layout, qp, cb_offset, cr_offset } = coding;
    let Planes { luma, cb, cr } = planes;
    let lengths = [
        Lent::samples("the luma plane", luma.len(), layout.samples()),
        Lent::samples("the plane of Cb", cb.len(), layout.chroma_samples()),
        Lent::samples("the plane of Cr", cr.len(), layout.chroma_samples()),
        Lent::bytes("the area for the file", file.len(), layout.colour_file_area()),
        Lent::samples("the area for the rebuilt luma plane", rebuilt.luma.len(), layout.samples()),
        Lent::samples("the area for the rebuilt plane of Cb", rebuilt.cb.len(), layout.chroma_samples()),
        Lent::samples("the area for the rebuilt plane of Cr", rebuilt.cr.len(), layout.chroma_samples()),
    ];
    let Layout { width, height, rows } = layout;
    let PlanesMut { luma: luma_out, cb: cb_out, cr: cr_out } = rebuilt;
    let word = calls::code_picture(width, height, rows, qp, cb_offset, cr_offset, luma, cb, cr, file, luma_out, cb_out, cr_out);
    let used = word.value(|number, place| match number {
        SIZE => words::size("the picture is given as of", layout),
        LENGTH => words::length(layout, &lengths),
        QUANTIZER => words::quantizer(qp, &[(" of Cb", cb_offset), (" of Cr", cr_offset)]),
        _ => words::unknown(place),
    })?;
    Ok(used as usize)
}

/// The size and the slices of the picture whose record file this is. FORM, MARK, SUM, SIZE.
pub fn read_head(file: &[u8]) -> Result<Layout, Refusal> {
    let word = calls::read_head(file);
    let value = word.value(|_, _| fault::words(file, word))?;
    let [width, height, rows] = [value % 256, value / 256 % 256, value / 65536].map(|number| number as usize);
    Ok(Layout { width, height, rows })
}

/// The luma plane of a file, mono or colour. FORM, MARK, NUMBER, SUM, SIZE, QUANTIZER, MODE, RANGE.
pub fn decode_plane(file: &[u8]) -> Result<DecodedPlane, Refusal> {
    let layout = read_head(file)?;
    let mut samples = layout.area(layout.samples());
    decode_plane_into(file, &mut samples)?;
    Ok(DecodedPlane { layout, samples })
}

/// The same into a lent area, whose LENGTH is refused where the head is not.
pub fn decode_plane_into(file: &[u8], plane: &mut [u8]) -> Result<(), Refusal> {
    let length = plane.len();
    let word = calls::decode_plane(file, plane);
    word.value(|number, _| of_file(number, word, file, |layout| vec![Lent::samples("the plane", length, layout.samples())]))?;
    Ok(())
}

/// The words of a refusal of a file with planes for it.
fn of_file<'a>(number: u8, word: Word, file: &[u8], lent: impl FnOnce(Layout) -> Vec<Lent<'a>>) -> Words {
    match number {
        LENGTH => {
            let layout = fault::layout(file);
            words::length(layout, &lent(layout))
        }
        _ => fault::words(file, word),
    }
}

/// The planes of a file, mono or colour. FORM, MARK, NUMBER, SUM, SIZE, QUANTIZER, MODE, RANGE.
pub fn decode_picture(file: &[u8]) -> Result<DecodedPicture, Refusal> {
    let layout = read_head(file)?;
    let mut luma = layout.area(layout.samples());
    let [mut cb, mut cr] = [(), ()].map(|()| layout.area(layout.chroma_samples()));
    let colour = decode_picture_into(file, PlanesMut { luma: &mut luma, cb: &mut cb, cr: &mut cr })?;
    Ok(DecodedPicture { layout, luma, chroma: colour.then_some([cb, cr]) })
}

/// The same into lent areas, whose LENGTH is refused where the head is not; of a mono file those of chroma have to be lent too, and keep
/// their bytes. Answers whether the file is colour.
pub fn decode_picture_into(file: &[u8], planes: PlanesMut) -> Result<bool, Refusal> {
    let PlanesMut { luma, cb, cr } = planes;
    let lengths = [luma.len(), cb.len(), cr.len()];
    let word = calls::decode_picture(file, luma, cb, cr);
    let value = word.value(|number, _| {
        of_file(number, word, file, |layout| {
            vec![
                Lent::samples("the luma plane", lengths[0], layout.samples()),
                Lent::samples("the plane of Cb", lengths[1], layout.chroma_samples()),
                Lent::samples("the plane of Cr", lengths[2], layout.chroma_samples()),
            ]
        })
    })?;
    Ok(value == 1)
}

/// Whether a delivery is accepted: a file that is decoded to this very luma plane. FORM, MARK, NUMBER, SUM, SIZE, LENGTH, QUANTIZER, MODE,
/// RANGE, DIFFERS.
pub fn inspect(file: &[u8], theirs: &[u8]) -> Result<(), Refusal> {
    let word = calls::inspect(file, theirs);
    word.value(|number, place| match number {
        DIFFERS => differs(file, theirs, place),
        _ => of_file(number, word, file, |layout| vec![Lent::samples("the delivered plane", theirs.len(), layout.samples())]),
    })?;
    Ok(())
}

/// The words of DIFFERS: which sample it is, and both values.
fn differs(file: &[u8], theirs: &[u8], place: u64) -> Words {
    let layout = fault::layout(file);
    let macroblock = layout.macroblock(place / 256);
    let (x, y) = (place % 16, place % 256 / 16);
    let side = SIDE as u64;
    let (column, row) = (side * macroblock.column + x, side * macroblock.row + y);
    let index = row * side * layout.width as u64 + column;
    let mut ours = layout.area(layout.samples());
    calls::decode_plane(file, &mut ours);
    let values = words::element(theirs, index).zip(words::element(&ours, index));
    let wrong = values.map_or_else(
        || String::from("the delivered sample is not the decoder's"),
        |(theirs, ours)| format!("the delivered sample is {theirs}, and the decoder's is {ours}"),
    );
    let place = format!("column {column}, row {row} of the picture, which is sample {} (column {x}, row {y}) of {macroblock}", place % 256);
    Words::at(place, wrong)
}
