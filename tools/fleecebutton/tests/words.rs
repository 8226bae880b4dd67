//! Every refusal with its number, name, place and words.

mod common;

use common::{coded, coloured, noise, resummed};
use fleecebutton::*;

/// What a refusal is told as.
fn told<T: std::fmt::Debug>(answer: Result<T, Refusal>) -> (u8, &'static str, u64, String) {
    let refusal = answer.unwrap_err();
    (refusal.number(), refusal.name(), refusal.place(), refusal.to_string())
}

/// That it is told so: number, name, place, and the words behind the name.
macro_rules! assert_told {
    ($answer:expr, $number:expr, $name:expr, $place:expr, $words:expr) => {
        let words = format!("{} (refusal {}){}", $name, $number, $words);
        assert_eq!(told($answer), ($number, $name, $place, words));
    };
}

const TWO: Layout = Layout::one_slice(2, 1);

#[test]
fn length() {
    let words = ": the plane has 300 samples, and of a picture of 2 x 1 macroblocks it has 512";
    assert_told!(code_plane(TWO, 28, &[0; 300]), 1, "LENGTH", 0, words);
    let words = ": the plane has 0 samples, and of a picture of 2 x 1 macroblocks it has 512";
    assert_told!(code_plane(TWO, 28, &[]), 1, "LENGTH", 0, words);
    let words = ": the area for the file has 3 bytes, and of a picture of 2 x 1 macroblocks it has 1062";
    assert_told!(code_plane_into(TWO, 28, &[0; 512], &mut [0; 3], &mut [0; 512]), 1, "LENGTH", 0, words);
    let words = ": the area for the rebuilt plane has 511 samples, and of a picture of 2 x 1 macroblocks it has 512";
    assert_told!(code_plane_into(TWO, 28, &[0; 512], &mut [0; 1062], &mut [0; 511]), 1, "LENGTH", 0, words);
    let file = coded(TWO, 28).file;
    let words = ": the plane has 256 samples, and of a picture of 2 x 1 macroblocks it has 512";
    assert_told!(decode_plane_into(&file, &mut [0; 256]), 1, "LENGTH", 0, words);
    let planes = PlanesMut { luma: &mut [0; 512], cb: &mut [0; 128], cr: &mut [0; 127] };
    let words = ": the plane of Cr has 127 samples, and of a picture of 2 x 1 macroblocks it has 128";
    assert_told!(decode_picture_into(&file, planes), 1, "LENGTH", 0, words);
    let words = ": the delivered plane has 513 samples, and of a picture of 2 x 1 macroblocks it has 512";
    assert_told!(inspect(&file, &[0; 513]), 1, "LENGTH", 0, words);
    let words = ": the map has 3 bytes, and of a picture of 2 x 1 macroblocks it has 2";
    assert_told!(quality_sheet(2, 1, &[0; 512], &[0; 512], &[1; 3]), 1, "LENGTH", 0, words);
    let coding = Coding { layout: TWO, qp: 28, cb_offset: 0, cr_offset: 0 };
    let planes = Planes { luma: &[0; 512], cb: &[0; 512], cr: &[0; 128] };
    let words = ": the plane of Cb has 512 samples, and of a picture of 2 x 1 macroblocks it has 128";
    assert_told!(code_picture(coding, planes), 1, "LENGTH", 0, words);
}

#[test]
fn quantizer_of_a_call() {
    let words = ": the QP is 52, and a QP is 0 to 51";
    assert_told!(code_plane(TWO, 52, &[0; 512]), 2, "QUANTIZER", 0, words);
    assert_told!(levels(52, &[0; 16]), 2, "QUANTIZER", 0, words);
    assert_told!(rebuild(52, &[0; 16], &[0; 16]), 2, "QUANTIZER", 0, words);
    assert_told!(rebuild_with_dc(52, &[0; 16], 0, &[0; 15]), 2, "QUANTIZER", 0, words);
    assert_told!(luma_dc_levels(52, &[0; 16]), 2, "QUANTIZER", 0, words);
    assert_told!(luma_dc_values(52, &[0; 16]), 2, "QUANTIZER", 0, words);
    assert_told!(chroma_dc_levels(52, &[0; 4]), 2, "QUANTIZER", 0, words);
    assert_told!(chroma_dc_values(52, &[0; 4]), 2, "QUANTIZER", 0, words);
    assert_told!(code_block(52, 0, &[0; 13], &[0; 16]), 2, "QUANTIZER", 0, words);
    assert_told!(promised_distance(52), 2, "QUANTIZER", 0, words);
    assert_told!(chroma_quantizer(52, 13), 2, "QUANTIZER", 0, words);
    let words = ": the offset is -13, and an offset is -12 to 12";
    assert_told!(chroma_quantizer(51, -13), 2, "QUANTIZER", 0, words);
    let planes = Planes { luma: &[0; 512], cb: &[0; 128], cr: &[0; 128] };
    let coding = |cb_offset, cr_offset| Coding { layout: TWO, qp: 28, cb_offset, cr_offset };
    let words = ": the offset of Cb is 13, and an offset is -12 to 12";
    assert_told!(code_picture(coding(13, 14), planes), 2, "QUANTIZER", 0, words);
    let words = ": the offset of Cr is 14, and an offset is -12 to 12";
    assert_told!(code_picture(coding(12, 14), planes), 2, "QUANTIZER", 0, words);
}

#[test]
fn quantizer_of_a_file() {
    let mut file = coded(Layout::one_slice(2, 2), 28).file;
    file[8 + 3 * 527 + 4] = 60;
    resummed(&mut file);
    let words = " at macroblock 3 (column 1, row 1), whose record begins at byte 1589: the QP is 60, and a QP is 0 to 51";
    assert_told!(decode_plane(&file), 2, "QUANTIZER", 48, words);
    let mut file = coloured(2, 1).file;
    let begin = 8 + 792 + 527;
    file[begin + 5] = 0xF3;
    resummed(&mut file);
    let words = " at byte 1327, where the chroma record of macroblock 1 (column 1, row 0) begins: the offset of Cr is -13, and an offset is -12 to 12";
    assert_told!(decode_plane(&file), 2, "QUANTIZER", 1327, words);
    file[begin + 4] = 100;
    resummed(&mut file);
    let words = " at byte 1327, where the chroma record of macroblock 1 (column 1, row 0) begins: the offset of Cb is 100, and an offset is -12 to 12";
    assert_told!(decode_picture(&file), 2, "QUANTIZER", 1327, words);
}

#[test]
fn mode_of_a_call() {
    let words = ": the mode is 9, and modes of a 4x4 block are 0 to 8";
    assert_told!(predict(&[0; 13], 15, 9), 3, "MODE", 0, words);
    let words = ": mode 4 needs A-D, I-L and M, and present by the flags 9 is A-D and E-H";
    assert_told!(predict(&[0; 13], 9, 4), 3, "MODE", 0, words);
    let words = ": mode 0 needs A-D, and present by the flags 0 is nothing";
    assert_told!(predict(&[0; 13], 0, 0), 3, "MODE", 0, words);
    let words = ": mode 8 needs I-L, and present by the flags 4 is M";
    assert_told!(predict(&[0; 13], 4, 8), 3, "MODE", 0, words);
}

/// The words for what a mode needs are the library's own rule, for every mode and flags.
#[test]
fn a_mode_is_refused_where_the_words_say_so() {
    let needs = [1, 2, 0, 1, 7, 7, 7, 1, 2];
    for flags in 0..16 {
        for (mode, needed) in (0..).zip(needs) {
            assert_eq!(predict(&[9; 13], flags, mode).is_ok(), flags & needed == needed, "mode {mode}, flags {flags}");
        }
    }
}

#[test]
fn mode_of_a_file() {
    let mut file = coded(TWO, 28).file;
    // blocks 4 and 5 of macroblock 1
    file[8 + 527 + 5 + 2] = 0x9B;
    resummed(&mut file);
    let words = " at block 4 of macroblock 1 (column 1, row 0), whose record begins at byte 535: the mode is 11, and modes of a 4x4 block are 0 to 8";
    assert_told!(decode_plane(&file), 3, "MODE", 20, words);
    let mut file = coded(TWO, 28).file;
    // above macroblock 0 there is nothing
    file[8 + 5] &= 0xF0;
    resummed(&mut file);
    let words =
        " at block 0 of macroblock 0 (column 0, row 0), whose record begins at byte 8: mode 0 needs samples that are outside the picture, \
                 in another slice or not yet decoded there";
    assert_told!(decode_plane(&file), 3, "MODE", 0, words);
    let (mut file, place) = with_a_whole_one();
    file[place + 5] = 4;
    resummed(&mut file);
    let words = format!(
        " at macroblock 4 (column 1, row 1), whose record begins at byte {place}: the mode is 4, and modes of a macroblock that is predicted as a \
         whole are 0 to 3"
    );
    assert_told!(decode_plane(&file), 3, "MODE", 64, words);
    let mut file = coloured(2, 1).file;
    file[8 + 527 + 6] = 3;
    resummed(&mut file);
    let words =
        " at byte 535, where the chroma record of macroblock 0 (column 0, row 0) begins: mode 3 needs samples that are outside the \
                 picture, in another slice or not yet decoded there";
    assert_told!(decode_plane(&file), 3, "MODE", 535, words);
}

/// A file of 3x3, and the place of the record of macroblock 4, the one in the middle, which is predicted as a whole.
fn with_a_whole_one() -> (Vec<u8>, usize) {
    let slope = |place: usize| (2 * (place % 48) + 3 * (place / 48)) as u8;
    let plane: Vec<u8> = (0..48 * 48).map(slope).collect();
    let file = code_plane(Layout::one_slice(3, 3), 4, &plane).unwrap().file;
    let middle = Records::of(&file).nth(4).unwrap();
    assert_eq!(middle.kind(), Kind::Sixteen);
    let place = middle.place();
    (file, place)
}

#[test]
fn residual() {
    let mut numbers = [0; 16];
    numbers[3] = 256;
    let words = " at index 3: it is 256, and a residual is -255 to 255";
    assert_told!(forward(&numbers), 4, "RESIDUAL", 3, words);
    assert_told!(levels(28, &numbers), 4, "RESIDUAL", 3, words);
    numbers[2] = -4081;
    let words = " at index 2: it is -4081, and a DC coefficient is -4080 to 4080";
    assert_told!(luma_dc_levels(28, &numbers), 4, "RESIDUAL", 2, words);
    assert_told!(chroma_dc_levels(28, &[0, 0, -4081, 0]), 4, "RESIDUAL", 2, words);
}

#[test]
fn level() {
    let mut numbers = [0; 16];
    numbers[15] = 32768;
    let words = " at index 15: it is 32768, and a level is -32768 to 32767";
    assert_told!(rebuild(28, &[0; 16], &numbers), 5, "LEVEL", 15, words);
    assert_told!(luma_dc_values(28, &numbers), 5, "LEVEL", 15, words);
    let words = " at index 3: it is -40000, and a level is -32768 to 32767";
    assert_told!(chroma_dc_values(28, &[0, 0, 0, -40000]), 5, "LEVEL", 3, words);
    let mut ac = [0; 15];
    ac[0] = i32::MIN;
    let words = " at index 1: it is -2147483648, and a level is -32768 to 32767";
    assert_told!(rebuild_with_dc(28, &[0; 16], 0, &ac), 5, "LEVEL", 1, words);
}

#[test]
fn range_of_a_call() {
    let mut numbers = [0; 16];
    numbers[0] = 3277;
    let words = " at index 0: the level 3277, rescaled at QP 0, is outside -32768 to 32767";
    assert_told!(rebuild(0, &[0; 16], &numbers), 6, "RANGE", 0, words);
    let words = " at index 0: it is 32768, and a given DC is -32768 to 32767";
    assert_told!(rebuild_with_dc(0, &[0; 16], 32768, &[0; 15]), 6, "RANGE", 0, words);
    let mut ac = [0; 15];
    ac[4] = -30000;
    let words = " at index 5: the level -30000, rescaled at QP 51, is outside -32768 to 32767";
    assert_told!(rebuild_with_dc(51, &[0; 16], 0, &ac), 6, "RANGE", 5, words);
    let words = " at index 0: the DC value in the place of this level, rescaled at QP 51, is outside -32768 to 32767";
    assert_told!(luma_dc_values(51, &[32767; 16]), 6, "RANGE", 0, words);
    assert_told!(chroma_dc_values(51, &[32767; 4]), 6, "RANGE", 0, words);
}

#[test]
fn range_of_a_file() {
    let mut file = coded(TWO, 28).file;
    // the first level of block 2 of macroblock 1
    let place = 8 + 527 + 13 + 2 * 32;
    file[place..place + 2].copy_from_slice(&[0x7F, 0xFF]);
    resummed(&mut file);
    let words =
        " at block 2 of macroblock 1 (column 1, row 0), whose record begins at byte 535: a level of it, rescaled at QP 28, is outside \
                 -32768 to 32767";
    assert_told!(decode_plane(&file), 6, "RANGE", 18, words);
    let (mut file, place) = with_a_whole_one();
    file[place + 6..place + 8].copy_from_slice(&[0x7F, 0xFF]);
    resummed(&mut file);
    let words = format!(
        " at block 0 of macroblock 4 (column 1, row 1), whose record begins at byte {place}: a DC value of the macroblock, or a level of this \
         block, rescaled at QP 4, is outside -32768 to 32767"
    );
    assert_told!(decode_plane(&file), 6, "RANGE", 64, words);
    let mut file = coloured(2, 1).file;
    file[8 + 527 + 7..8 + 527 + 9].copy_from_slice(&[0x7F, 0xFF]);
    resummed(&mut file);
    let words =
        " at byte 535, where the chroma record of macroblock 0 (column 0, row 0) begins: a level or a DC value of it, rescaled, is \
                 outside -32768 to 32767";
    assert_told!(decode_picture(&file), 6, "RANGE", 535, words);
}

/// Place 535 is the first byte of macroblock 0's chroma record, and block 7 of macroblock 33 (535 = 16 * 33 + 7).
#[test]
fn one_place_of_two_records_is_told_of_the_right_one() {
    let coded = coloured(6, 6);
    assert_eq!(Records::of(&coded.file).nth(1).map(|second| (second.kind(), second.place())), Some((Kind::Chroma, 535)));
    let luma = Records::of(&coded.file).filter(|record| record.kind() != Kind::Chroma).nth(33).unwrap();
    let mut of_luma = coded.file.clone();
    of_luma[luma.place() + 5 + 3] |= 0xF0;
    resummed(&mut of_luma);
    let in_luma = format!(
        " at block 7 of macroblock 33 (column 3, row 5), whose record begins at byte {}: the mode is 15, and modes of a 4x4 block are 0 to 8",
        luma.place()
    );
    assert_told!(decode_plane(&of_luma), 3, "MODE", 535, in_luma);
    let in_chroma =
        " at byte 535, where the chroma record of macroblock 0 (column 0, row 0) begins: the mode is 77, and modes of chroma are 0 to 3";
    let mut of_chroma = coded.file.clone();
    of_chroma[535 + 6] = 77;
    resummed(&mut of_chroma);
    assert_told!(decode_plane(&of_chroma), 3, "MODE", 535, in_chroma);
    // with both, the first in the file is told
    of_luma[535 + 6] = 77;
    resummed(&mut of_luma);
    assert_told!(inspect(&of_luma, &vec![0; 256 * 36]), 3, "MODE", 535, in_chroma);
}

#[test]
fn size() {
    let words = ": the picture is given as of 0 x 1 macroblocks of 16x16, and a side has 1 to 128 of them (16 to 2048 samples)";
    assert_told!(code_plane(Layout::one_slice(0, 1), 28, &[]), 8, "SIZE", 0, words);
    let words = ": the picture is given as of 1 x 129 macroblocks of 16x16, and a side has 1 to 128 of them (16 to 2048 samples)";
    assert_told!(code_plane(Layout::one_slice(1, 129), 28, &[0; 33024]), 8, "SIZE", 0, words);
    let words = format!(
        ": the picture is given as of {0} x {0} macroblocks of 16x16, and a side has 1 to 128 of them (16 to 2048 samples)",
        usize::MAX
    );
    let coding = Coding { layout: Layout::one_slice(usize::MAX, usize::MAX), qp: 28, cb_offset: 0, cr_offset: 0 };
    assert_told!(code_picture(coding, Planes { luma: &[], cb: &[], cr: &[] }), 8, "SIZE", 0, words);
    let words = ": planes are given as of 129 x 0 macroblocks of 16x16, and a side has 1 to 128 of them (16 to 2048 samples)";
    assert_told!(quality_sheet(129, 0, &[], &[], &[]), 8, "SIZE", 0, words);
    for rows in [0, 3, usize::MAX] {
        let words =
            format!(": the picture is given as of slices of {rows} rows of macroblocks, and of a picture of 2 rows they have 1 to 2");
        assert_told!(code_plane(Layout { width: 1, height: 2, rows }, 28, &[0; 512]), 8, "SIZE", 0, words);
    }
    let words = ": the head says 0 x 1 macroblocks of 16x16, and a side has 1 to 128 of them (16 to 2048 samples)";
    assert_told!(read_head(&[0x48, 0x44, 0, 0, 0, 1, 0, 0x8D]), 8, "SIZE", 0, words);
    let words = ": the head says slices of 5 rows of macroblocks, and of a picture of 3 rows they have 1 to 3";
    assert_told!(decode_plane(&[0x48, 0x53, 0, 4, 0, 3, 0, 5, 0, 0xA7]), 8, "SIZE", 0, words);
}

#[test]
fn form() {
    let words = ": the file has 0 bytes, and its head alone has 8 or 10";
    assert_told!(read_head(&[]), 9, "FORM", 0, words);
    let words = ": the file has 5 bytes, and its head, which begins with 48 53, alone has 10";
    assert_told!(decode_picture(&[0x48, 0x53, 0, 1, 0]), 9, "FORM", 0, words);
    let file = coded(TWO, 28).file;
    let words =
        " at byte 700, where the file ends: the luma record of macroblock 1 (column 1, row 0), which begins at byte 535, is not all there";
    assert_told!(decode_plane(&file[..700]), 9, "FORM", 700, words);
    let words =
        " at byte 8, where the file ends: the luma record of macroblock 0 (column 0, row 0), which begins at byte 8, is not all there";
    assert_told!(decode_plane(&file[..8]), 9, "FORM", 8, words);
    let words = " at byte 1065, where the file ends: the last record ends at byte 1062, and nothing may stand behind it";
    assert_told!(decode_plane(&[&file[..], &[1, 2, 3]].concat()), 9, "FORM", 1065, words);
    let words = " at byte 1589, where the file ends: the last record ends at byte 1062, and nothing may stand behind it";
    assert_told!(inspect(&[&file[..], &file[535..]].concat(), &[0; 512]), 9, "FORM", 1589, words);
    let file = coloured(1, 1).file;
    let words = " at byte 537, where the file ends: the chroma record of macroblock 0 (column 0, row 0), which begins at byte 535, is not all there";
    assert_told!(decode_plane(&file[..537]), 9, "FORM", 537, words);
}

#[test]
fn flags() {
    let words = ": the flags are 16, and flags are 0 to 15, a sum of 1 (A-D), 2 (I-L), 4 (M) and 8 (E-H)";
    assert_told!(predict(&[0; 13], 16, 2), 10, "FLAGS", 0, words);
    assert_told!(choose(&[0; 13], 16, &[0; 16]), 10, "FLAGS", 0, words);
    assert_told!(code_block(28, 16, &[0; 13], &[0; 16]), 10, "FLAGS", 0, words);
    let words =
        " at index 5 of the map, which is macroblock 5 (column 2, row 1): the byte is 7, and a byte of a map is 1 where the macroblock is \
                 present and 0 where it is absent";
    assert_told!(quality_sheet(3, 2, &[0; 1536], &[0; 1536], &[1, 0, 1, 0, 1, 7]), 10, "FLAGS", 5, words);
}

#[test]
fn mark() {
    let words = " at byte 0: the file begins with 50 35, and a record file begins with 48 44 or 48 53";
    assert_told!(decode_picture(b"P5\n16 16\n255\n"), 11, "MARK", 0, words);
    let file = coded(Layout::one_slice(3, 1), 28).file;
    let changed = |place: usize, mark: [u8; 2]| {
        let mut changed = file.clone();
        changed[place..place + 2].copy_from_slice(&mark);
        changed
    };
    let words = " at byte 8: 4D 43 stands there, and the luma record of macroblock 0 (column 0, row 0) begins with 4D 42 or 4D 36";
    assert_told!(decode_plane(&changed(8, [0x4D, 0x43])), 11, "MARK", 8, words);
    let words =
        " at byte 535: 57 53 stands there, and the luma record of macroblock 1 (column 1, row 0) begins with 4D 42 or 4D 36 (in a colour \
                 file a chroma record comes before it, with 4D 43)";
    assert_told!(decode_plane(&changed(535, [0x57, 0x53])), 11, "MARK", 535, words);
    let words = " at byte 1062: 00 00 stands there, and the luma record of macroblock 2 (column 2, row 0) begins with 4D 42 or 4D 36";
    assert_told!(decode_plane(&changed(1062, [0, 0])), 11, "MARK", 1062, words);
    let mut file = coloured(2, 1).file;
    file[8 + 792 + 527] = 1;
    let words = " at byte 1327: 01 43 stands there, and the chroma record of macroblock 1 (column 1, row 0) begins with 4D 43";
    assert_told!(decode_plane(&file), 11, "MARK", 1327, words);
}

#[test]
fn number() {
    let mut file = coded(Layout::one_slice(2, 2), 28).file;
    file[8 + 2 * 527 + 2] = 1;
    let words = " at byte 1064: the number 258 stands there, and the luma record of macroblock 2 (column 0, row 1) has the number 2";
    assert_told!(decode_plane(&file), 12, "NUMBER", 1064, words);
    let mut file = coloured(2, 1).file;
    file[8 + 792 + 527 + 3] = 0;
    let words = " at byte 1329: the number 0 stands there, and the chroma record of macroblock 1 (column 1, row 0) has the number 1";
    assert_told!(decode_plane(&file), 12, "NUMBER", 1329, words);
}

#[test]
fn sum() {
    let words = " at byte 6: the sum there is 00 8F, and the bytes of the head before it, from byte 0, add up to 00 8E";
    assert_told!(read_head(&[0x48, 0x44, 0, 1, 0, 1, 0, 0x8F]), 13, "SUM", 6, words);
    let words = " at byte 8: the sum there is 01 A4, and the bytes of the head before it, from byte 0, add up to 00 A4";
    assert_told!(read_head(&[0x48, 0x53, 0, 4, 0, 3, 0, 2, 1, 0xA4]), 13, "SUM", 8, words);
    let mut file = coded(TWO, 28).file;
    let right = [file[1060], file[1061]];
    file[1061] ^= 1;
    let words = format!(
        " at byte 1060: the sum there is {:02X} {:02X}, and the bytes of the luma record of macroblock 1 (column 1, row 0) before it, from byte \
         535, add up to {:02X} {:02X}",
        right[0],
        right[1] ^ 1,
        right[0],
        right[1]
    );
    assert_told!(decode_plane(&file), 13, "SUM", 1060, words);
}

#[test]
fn differs() {
    let coded = coded(Layout::one_slice(3, 2), 28);
    let mut theirs = coded.rebuilt.clone();
    // column 20, row 19: macroblock 4, its column 4 and row 3
    let place = 19 * 48 + 20;
    theirs[place] ^= 0x55;
    let words = format!(
        " at column 20, row 19 of the picture, which is sample 52 (column 4, row 3) of macroblock 4 (column 1, row 1): the delivered sample is {}, \
         and the decoder's is {}",
        theirs[place], coded.rebuilt[place]
    );
    assert_told!(inspect(&coded.file, &theirs), 17, "DIFFERS", 4 * 256 + 52, words);
    assert_eq!(inspect(&coded.file, &coded.rebuilt), Ok(()));
}

/// One line, whatever a file holds.
#[test]
fn words_are_one_line() {
    let mut random = noise(3);
    let whole = coloured(2, 1).file;
    for _ in 0..2000 {
        let mut file = whole.clone();
        for _ in 0..=random(3) {
            let place = random(file.len() as u32) as usize;
            file[place] = random(256) as u8;
        }
        resummed(&mut file);
        file.truncate(whole.len() - random(2) as usize * random(whole.len() as u32) as usize);
        if let Err(refusal) = decode_picture(&file) {
            let words = refusal.to_string();
            assert!(!words.contains('\n') && words.starts_with(refusal.name()) && refusal.name() != "UNKNOWN", "{words}");
        }
    }
}
