//! Malformed pictures and files: each is refused in words, with status 1, and nothing is written.

mod common;

use common::*;
use std::fs;

/// Tries inputs of a command: what each is, its bytes, and some of the words that it is refused with.
fn refused(name: &str, words: &[&str], kinds: &[(&str, Vec<u8>, &str)]) {
    let folder = folder(name);
    for (kind, bytes, expected) in kinds {
        fs::write(folder.join("in"), bytes).unwrap();
        let run = fleece(&folder, words);
        assert!(run.errors.starts_with("fleece: in: "), "{kind}: {:?}", run.errors);
        assert!(run.errors.contains(expected), "{kind}: {:?} does not say: {expected}", run.errors);
        run.told(1, expected);
        assert_eq!(names(&folder), ["in"], "{kind}");
    }
}

fn text(text: &str) -> Vec<u8> {
    text.as_bytes().to_vec()
}

/// A head with 256 samples behind it.
fn headed(head: &str) -> Vec<u8> {
    [head.as_bytes(), &[7; 256]].concat()
}

#[test]
fn pictures() {
    let kinds: Vec<(&str, Vec<u8>, &str)> = vec![
        ("empty", vec![], "at byte 0: the file is empty"),
        ("one byte", text("P"), "at byte 0: this is no PGM or PPM"),
        ("another kind of file", vec![0xFF, 0xD8, 0xFF, 0xE0], "at byte 0: this is no PGM or PPM"),
        ("a record file", mono(1, 1), "at byte 0: this looks like a record file"),
        ("plain PGM", headed("P2\n16 16\n255\n"), "at byte 0: this is a plain PGM (P2"),
        ("plain PPM", headed("P3\n16 16\n255\n"), "at byte 0: this is a plain PPM (P3"),
        ("PBM", headed("P4\n16 16\n"), "at byte 0: this is a PBM"),
        ("PAM", headed("P7\nWIDTH 16\n"), "at byte 0: this is a PAM"),
        ("mark alone", text("P5"), "at byte 2: the file ends, and white space before the width should stand there"),
        (
            "no space behind the mark",
            headed("P516 16\n255\n"),
            "at byte 2: the byte 31 stands there, and white space before the width should",
        ),
        ("no number", headed("P5\nxx 16\n255\n"), "at byte 3: the byte 78 stands there, and digits of the width should"),
        ("a negative number", headed("P5\n16 -16\n255\n"), "at byte 6: the byte 2D stands there, and digits of the height should"),
        ("a fraction", headed("P5\n16.0 16\n255\n"), "at byte 5: the byte 2E stands there, and white space behind the width should"),
        ("vertical tab", headed("P5\n16\x0b16\n255\n"), "at byte 5: the byte 0B stands there"),
        ("head cut", text("P5\n16 16"), "at byte 8: the file ends, and white space behind the height should stand there"),
        ("no highest value", text("P5\n16 16\n"), "at byte 9: the file ends, and digits of the highest value should stand there"),
        ("nothing behind the head", text("P5\n16 16\n255"), "at byte 12: the file ends, and white space behind the highest value"),
        ("comment without end", text("P5\n# 16 16 255"), "at byte 14: the file ends, and digits of the width should stand there"),
        ("16 bits", headed("P5\n16 8\n65535\n"), "at byte 7: the highest value is 65535, and only 255 (8 bits) is taken"),
        ("few bits", headed("P5\n16 16\n254\n"), "the highest value is 254"),
        ("highest value 0", headed("P5\n16 16\n0\n"), "the highest value is 0"),
        (
            "a sample short",
            headed("P5\n16 16\n255\n")[..268].to_vec(),
            "at byte 268: 255 bytes of samples are there, and a PGM (P5) of 16 x 16 has 256",
        ),
        ("a sample long", headed("P5\n16 16\n255\n\n"), "at byte 269: 257 bytes of samples are there, and a PGM (P5) of 16 x 16 has 256"),
        ("colour cut", headed("P6\n16 16\n255\n"), "256 bytes of samples are there, and a PPM (P6) of 16 x 16 has 768"),
        ("a number of many digits", headed("P5\n99999999999999999999999 16\n255\n"), "at byte 3: the width is above 1000000"),
        (
            "larger than memory",
            headed("P6\n1000000 1000000\n255\n"),
            "256 bytes of samples are there, and a PPM (P6) of 1000000 x 1000000 has 3000000000000",
        ),
        ("width 0", text("P5\n0 16\n255\n"), "SIZE (refusal 8): the picture is given as of 0 x 1 macroblocks"),
        ("height 0", text("P6\n16 0\n255\n"), "SIZE (refusal 8): the picture is given as of 1 x 0 macroblocks"),
        ("too wide", pgm(2064, 16), "SIZE (refusal 8): the picture is given as of 129 x 1 macroblocks"),
        ("no multiple of 16", pgm(17, 32), "17 x 32 samples, and width and height have to be multiples of 16; --pad would make it 32 x 32"),
    ];
    assert!(kinds.len() >= 20);
    refused("malformed-pictures", &["code", "in", "out", "rebuilt"], &kinds);
}

/// A file with some bytes changed from a place on.
fn changed(mut file: Vec<u8>, place: usize, bytes: &[u8]) -> Vec<u8> {
    file[place..place + bytes.len()].copy_from_slice(bytes);
    file
}

fn files() -> Vec<(&'static str, Vec<u8>, &'static str)> {
    let (two, coloured) = (mono(2, 1), colour(2, 1));
    let first = 8;
    let second = 8 + 527;
    let chroma = second;
    let mut doubled = two[..8 + 527].to_vec();
    doubled.extend_from_slice(&two[8..]);
    let (three, three_coloured) = (mono(3, 1), colour(3, 1));
    let missing = [&three_coloured[..8 + 792 + 527], &three_coloured[8 + 2 * 792..]].concat();
    let surplus = [&three[..8 + 2 * 527], &three_coloured[8 + 792 + 527..8 + 2 * 792], &three[8 + 2 * 527..]].concat();
    vec![
        ("empty", vec![], "FORM (refusal 9): the file has 0 bytes"),
        ("one byte", vec![0x48], "FORM (refusal 9): the file has 1 bytes"),
        ("head cut", two[..7].to_vec(), "FORM (refusal 9): the file has 7 bytes, and its head, which begins with 48 44, alone has 8"),
        ("a picture", pgm(16, 16), "MARK (refusal 11) at byte 0: the file begins with 50 35"),
        ("head's sum", changed(two.clone(), 7, &[0]), "SUM (refusal 13) at byte 6"),
        ("no macroblock", vec![0x48, 0x44, 0, 0, 0, 0, 0, 0x8C], "SIZE (refusal 8): the head says 0 x 0 macroblocks"),
        ("too many", vec![0x48, 0x44, 0, 129, 0, 1, 1, 0x0E], "SIZE (refusal 8): the head says 129 x 1 macroblocks"),
        ("slices of no row", vec![0x48, 0x53, 0, 1, 0, 1, 0, 0, 0, 0x9D], "SIZE (refusal 8): the head says slices of 0 rows"),
        ("slices too high", vec![0x48, 0x53, 0, 1, 0, 1, 0, 2, 0, 0x9F], "SIZE (refusal 8): the head says slices of 2 rows"),
        ("no record", two[..8].to_vec(), "FORM (refusal 9) at byte 8, where the file ends"),
        ("mark cut", two[..second + 1].to_vec(), "FORM (refusal 9) at byte 536, where the file ends"),
        (
            "record cut",
            two[..two.len() - 1].to_vec(),
            "FORM (refusal 9) at byte 1061, where the file ends: the luma record of macroblock 1 (column 1, row 0)",
        ),
        ("a byte more", [&two[..], &[0]].concat(), "FORM (refusal 9) at byte 1063, where the file ends: the last record ends at byte 1062"),
        ("a record twice", doubled, "NUMBER (refusal 12) at byte 537: the number 0 stands there, and the luma record of macroblock 1"),
        ("mark", changed(two.clone(), second, b"XX"), "MARK (refusal 11) at byte 535: 58 58 stands there"),
        ("number", changed(two.clone(), second + 2, &[9, 9]), "NUMBER (refusal 12) at byte 537: the number 2313 stands there"),
        ("sum", changed(two.clone(), second + 100, &[0x55]), "SUM (refusal 13) at byte 1060"),
        (
            "QP",
            resummed(changed(two.clone(), second + 4, &[52])),
            "QUANTIZER (refusal 2) at macroblock 1 (column 1, row 0), whose record begins at byte 535: the QP is 52",
        ),
        ("mode", resummed(changed(two.clone(), second + 5, &[0x29])), "MODE (refusal 3) at block 0 of macroblock 1 (column 1, row 0)"),
        ("mode needs", resummed(changed(two.clone(), first + 5, &[0x24])), "MODE (refusal 3) at block 0 of macroblock 0 (column 0, row 0)"),
        ("range", resummed(changed(two, second + 13, &[0x80, 0])), "RANGE (refusal 6) at block 0 of macroblock 1 (column 1, row 0)"),
        ("chroma missing", missing, "MARK (refusal 11) at byte 1327: 4D 42 stands there, and the chroma record of macroblock 1"),
        ("chroma not expected", surplus, "MARK (refusal 11) at byte 1062: 4D 43 stands there, and the luma record of macroblock 2"),
        (
            "chroma's mark",
            changed(coloured.clone(), chroma + 792, b"MB"),
            "MARK (refusal 11) at byte 1327: 4D 42 stands there, and the chroma record of macroblock 1",
        ),
        (
            "chroma's number",
            changed(coloured.clone(), chroma + 3, &[1]),
            "NUMBER (refusal 12) at byte 537: the number 1 stands there, and the chroma record of macroblock 0",
        ),
        ("chroma's sum", changed(coloured.clone(), chroma + 264, &[0x77]), "SUM (refusal 13) at byte 798"),
        (
            "Cb's offset",
            resummed(changed(coloured.clone(), chroma + 4, &[13])),
            "QUANTIZER (refusal 2) at byte 535, where the chroma record of macroblock 0 (column 0, row 0) begins: the offset of Cb is 13",
        ),
        ("Cr's offset", resummed(changed(coloured.clone(), chroma + 5, &[0x80])), "the offset of Cr is -128"),
        (
            "chroma's mode",
            resummed(changed(coloured.clone(), chroma + 6, &[4])),
            "MODE (refusal 3) at byte 535, where the chroma record of macroblock 0 (column 0, row 0) begins: the mode is 4",
        ),
        ("chroma's range", resummed(changed(coloured, chroma + 7, &[0x80, 0])), "RANGE (refusal 6) at byte 535"),
    ]
}

#[test]
fn record_files() {
    let kinds = files();
    assert!(kinds.len() >= 20);
    refused("malformed-decode", &["decode", "in", "out"], &kinds);
    refused("malformed-luma", &["decode", "--luma", "in", "out"], &kinds);
    refused("malformed-info", &["info", "in"], &kinds);
}

#[test]
fn record_files_that_are_inspected() {
    let folder = folder("malformed-inspect");
    fs::write(folder.join("theirs"), pgm(32, 16)).unwrap();
    for (kind, bytes, expected) in files() {
        fs::write(folder.join("in"), bytes).unwrap();
        let run = fleece(&folder, &["inspect", "in", "theirs"]);
        assert_eq!(run.status, Some(1), "{kind}: {}", run.errors);
        // a size that the head has and the plane has not is told before a record is looked at
        assert!(run.errors.contains(expected) || run.errors.contains("theirs: 32 x 16 samples"), "{kind}: {}", run.errors);
    }
}

/// What netpbm allows is taken.
#[test]
fn comments_and_white_space() {
    let folder = folder("comments");
    let plain = pgm(16, 32);
    fs::write(folder.join("plain"), &plain).unwrap();
    let heads = [
        "P5 16 32 255 ",
        "P5\t16\r\n32\n\n255\n",
        "P5# a comment\n16#another\n32 #\n255\n",
        "P5\n# of a gauge\n# and its maker\n16 32\n255# the last one\n",
        "P5#\r16 0032\r255\r",
        "P5\n#16 16\n 16 32 000255\n",
    ];
    for head in heads {
        fs::write(folder.join("in"), [head.as_bytes(), samples(&plain)].concat()).unwrap();
        let run = fleece(&folder, &["compare", "in", "plain"]).done();
        assert_eq!(run.text(), "equal: 16 x 32 samples\n", "{head}");
    }
    // behind the highest value there is one character, and then the samples begin, also if they look like a comment
    fs::write(folder.join("in"), [b"P5 16 1 255 ".as_slice(), b"#comment or not\n"].concat()).unwrap();
    fs::write(folder.join("plain"), netpbm("P5", 16, 1, b"#comment or not\n")).unwrap();
    fleece(&folder, &["compare", "in", "plain"]).done();
}
