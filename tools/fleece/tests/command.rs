//! The command from outside: what it prints, its exit status, standard input and output, and wrong use.

mod common;

use common::*;
use std::ffi::OsStr;
use std::fs;
use std::io::Read;
use std::os::unix::ffi::OsStrExt;
use std::process::Stdio;

const COMMANDS: [&str; 8] = ["code", "decode", "info", "compare", "sheet", "inspect", "distance", "version"];

#[test]
fn help_for_each() {
    let folder = folder("help");
    let all = fleece(&folder, &["--help"]).done().text();
    for name in COMMANDS {
        assert!(all.contains(&format!("\n  fleece {name}")), "{name}");
        let own = fleece(&folder, &[name, "--help"]).done().text();
        assert!(own.starts_with(&format!("fleece {name}")) && own.lines().count() > 2, "{own}");
        // the same line of use in both
        assert!(all.contains(own.lines().next().unwrap()), "{own}");
        assert_eq!(fleece(&folder, &[name, "some", "words", "-h"]).done().text(), own);
    }
    assert_eq!(fleece(&folder, &["help"]).done().text(), all);
}

#[test]
fn version_says_which_library() {
    let text = fleece(&folder("version"), &["version"]).done().text();
    let expected = match cfg!(target_arch = "x86_64") {
        true => "library: proved archive\n",
        false => "library: the same source compiled for this processor, unproved build\n",
    };
    assert!(text.starts_with("fleece 0.1.0 for ") && text.ends_with(expected), "{text}");
}

#[test]
fn wrong_use() {
    let folder = folder("wrong-use");
    fs::write(folder.join("in"), pgm(16, 16)).unwrap();
    let none: [&str; 0] = [];
    fleece(&folder, &none).told(2, "a command is missing (fleece --help)");
    let wrong: [(&[&str], &str); 18] = [
        (&["encode"], "there is no command encode (fleece --help)"),
        (&[""], "there is no command"),
        (&["code"], "code: 0 operands are given, and it takes 2 or 3 (fleece code --help)"),
        (&["code", "in"], "code: 1 operands are given, and it takes 2 or 3"),
        (&["code", "in", "a", "b", "c"], "code: 4 operands are given"),
        (&["decode", "in", "a", "b"], "decode: 3 operands are given, and it takes 2 ("),
        (&["code", "-Q", "3", "in", "out"], "code: there is no switch -Q"),
        (&["code", "in", "out", "-q"], "code: -q needs a value behind it"),
        (&["code", "-q", "28", "-q", "29", "in", "out"], "code: -q stands twice"),
        (&["code", "-q", "256", "in", "out"], "code: -q 256 is not a QP, 0 to 51"),
        (&["code", "-q", "-1", "in", "out"], "code: -q -1 is not a QP, 0 to 51"),
        (&["code", "--rows", "two", "in", "out"], "code: --rows two is not a number of rows of macroblocks"),
        (&["code", "--cb-offset", "1", "in", "out"], "code: in is a PGM, which has no chroma for an offset"),
        (&["distance", "twelve"], "distance: QP twelve is not a number from 0 to 51"),
        (&["info", "--luma", "in"], "info: there is no switch --luma"),
        (&["compare", "-", "-"], "compare: standard input can be read only once"),
        (&["sheet", "in", "-", "-"], "sheet: standard input can be read only once"),
        (&["version", "now"], "version: 1 operands are given, and it takes 0"),
    ];
    for (words, expected) in wrong {
        fleece(&folder, words).told(2, expected);
    }
    assert_eq!(names(&folder), ["in"]);
}

#[test]
fn files_that_cannot_be_read() {
    let folder = folder("unreadable");
    fs::create_dir(folder.join("directory")).unwrap();
    for command in ["info", "decode"] {
        let more: &[&str] = if command == "decode" { &["out"] } else { &[] };
        fleece(&folder, &[&[command, "nothing.fb"], more].concat()).told(2, "nothing.fb: No such file");
        fleece(&folder, &[&[command, "directory"], more].concat()).told(2, "directory: Is a directory");
        fleece(&folder, &[&[command, "/dev/zero"], more].concat()).told(2, "/dev/zero: it has more than 67108864 bytes");
    }
    // a name is shown on one line, whatever it holds
    let name = OsStr::from_bytes(b"a\nb\xFF");
    fleece(&folder, &[OsStr::new("info"), name]).told(2, "a\\nb\u{FFFD}: No such file");
    fleece(&folder, &[OsStr::new("code"), name, name]).told(2, "a\\nb\u{FFFD}: No such file");
    fleece(&folder, &[name]).told(2, "there is no command a\\nb\u{FFFD}");
}

#[test]
fn standard_input_and_output() {
    let folder = folder("standard");
    let picture = pgm(48, 32);
    fs::write(folder.join("in"), &picture).unwrap();
    fleece(&folder, &["code", "in", "out", "rebuilt"]).done();
    let [file, rebuilt] = ["out", "rebuilt"].map(|name| fs::read(folder.join(name)).unwrap());
    assert_eq!(fed(&folder, &["code", "-", "-"], &picture).done().output, file);
    assert_eq!(fleece(&folder, &["code", "in", "-"]).done().output, file);
    assert_eq!(fed(&folder, &["code", "-", "other", "-"], &picture).done().output, rebuilt);
    assert_eq!(fs::read(folder.join("other")).unwrap(), file);
    assert_eq!(fed(&folder, &["decode", "-", "-"], &file).done().output, rebuilt);
    assert_eq!(fed(&folder, &["compare", "-", "rebuilt"], &rebuilt).done().text(), "equal: 48 x 32 samples\n");
    assert_eq!(
        fed(&folder, &["inspect", "-", "rebuilt"], &file).done().text(),
        "accepted: standard input is decoded to rebuilt, 48 x 32 samples\n"
    );
    assert_eq!(fed(&folder, &["info", "-"], &file).done().output, fleece(&folder, &["info", "out"]).done().output);
    fed(&folder, &["info", "-"], &file[..9]).told(1, "standard input: FORM (refusal 9) at byte 9");
    fleece(&folder, &["code", "in", "-", "-"]).told(2, "-: two outputs are to be written there");
    // behind -- a name may begin with -
    fleece(&folder, &["code", "--", "in", "-out"]).done();
    assert_eq!(fs::read(folder.join("-out")).unwrap(), file);
    // the difference on standard output, and the words beside it
    let run = fleece(&folder, &["compare", "in", "rebuilt", "-"]);
    assert_eq!((run.status, run.output.len()), (Some(1), picture.len()));
    assert!(run.errors.starts_with("fleece: different: first at "));
}

/// A reader that goes away, and a standard error that nobody reads.
#[test]
fn broken_pipes() {
    let folder = folder("pipes");
    fs::write(folder.join("in"), pgm(512, 512)).unwrap();
    fleece(&folder, &["code", "in", "file"]).done();
    for words in [&["decode", "file", "-"][..], &["code", "in", "other", "-"], &["code", "in", "-"]] {
        let mut child = command(&folder, words).stdout(Stdio::piped()).stderr(Stdio::piped()).spawn().unwrap();
        drop(child.stdout.take());
        let mut errors = String::new();
        child.stderr.take().unwrap().read_to_string(&mut errors).unwrap();
        assert_eq!(child.wait().unwrap().code(), Some(2));
        assert_eq!(errors, "fleece: standard output: Broken pipe (os error 32)\n");
    }
    let mut child = command(&folder, &["info", "nothing"]).stdout(Stdio::null()).stderr(Stdio::piped()).spawn().unwrap();
    drop(child.stderr.take());
    assert_eq!(child.wait().unwrap().code(), Some(2));
    assert_eq!(names(&folder), ["file", "in"]);
}

#[test]
fn info_counts() {
    let folder = folder("info");
    let slope: Vec<u8> = (0..48 * 64).map(|place| (2 * (place % 48) + place / 48) as u8).collect();
    fs::write(folder.join("in"), netpbm("P5", 48, 64, &slope)).unwrap();
    fleece(&folder, &["code", "-q", "4", "--rows", "3", "in", "file"]).done();
    let text = fleece(&folder, &["info", "file"]).done().text();
    let bytes = fs::read(folder.join("file")).unwrap();
    let line = |name: &str| text.lines().find_map(|line| line.strip_prefix(name)).unwrap_or_else(|| panic!("{name} in {text}")).to_string();
    assert_eq!(line("size: "), "48 x 64 samples, 3 x 4 macroblocks");
    assert_eq!(line("slices: "), "2, of 3 rows of macroblocks");
    assert_eq!(line("planes: "), "luma (mono)");
    assert_eq!(line("file: "), format!("{} bytes", bytes.len()));
    assert_eq!(line("QP: "), "4 (12)");
    let whole = (10 + 12 * 527 - bytes.len()) / 7;
    assert!(whole > 0);
    assert_eq!(line("records: "), format!("{} of 4x4, {whole} of 16x16, 0 of chroma", 12 - whole));
    let counted = |name: &str| -> usize { line(name).split(['(', ')']).skip(1).step_by(2).map(|it| it.parse::<usize>().unwrap()).sum() };
    assert_eq!((counted("modes of 4x4 blocks: "), counted("modes of 16x16: ")), (16 * (12 - whole), whole));
    assert!(line("levels: ").starts_with("3072, ") && line("levels: ").ends_with(" %)"), "{text}");
    // noughts counted by hand: a flat picture of 128 has no level at all
    fs::write(folder.join("in"), netpbm("P5", 16, 16, &[128; 256])).unwrap();
    fleece(&folder, &["code", "in", "file"]).done();
    let text = fleece(&folder, &["info", "file"]).done().text();
    assert!(text.ends_with("levels: 256, 256 of them zero (100.0 %)\n"), "{text}");
}

#[test]
fn compare_says_where_and_how_much() {
    let folder = folder("compare");
    let plain = [100; 32 * 16];
    let mut other = plain;
    (other[3 * 32 + 5], other[4 * 32], other[15 * 32 + 31]) = (90, 103, 255);
    fs::write(folder.join("a"), netpbm("P5", 32, 16, &plain)).unwrap();
    fs::write(folder.join("b"), netpbm("P5", 32, 16, &other)).unwrap();
    assert_eq!(fleece(&folder, &["compare", "a", "a"]).done().text(), "equal: 32 x 16 samples\n");
    let run = fleece(&folder, &["compare", "a", "b", "difference"]);
    assert_eq!((run.status, run.errors.as_str()), (Some(1), ""));
    let words = "different: first at column 5, row 3 (100 and 90); greatest difference 155; 3 of 512 samples differ\n";
    assert_eq!(run.text(), words);
    let shown = fs::read(folder.join("difference")).unwrap();
    assert!(shown.starts_with(b"P5\n32 16\n255\n"));
    let mut expected = [0; 512];
    (expected[3 * 32 + 5], expected[4 * 32], expected[15 * 32 + 31]) = (160, 48, 255);
    assert_eq!(samples(&shown), expected);
    // a picture of nothing but equal samples is black
    fleece(&folder, &["compare", "a", "a", "difference"]).done();
    assert_eq!(samples(&fs::read(folder.join("difference")).unwrap()), [0; 512]);
    fs::write(folder.join("turned"), netpbm("P5", 16, 32, &plain)).unwrap();
    fleece(&folder, &["compare", "a", "turned", "none"])
        .told(1, "turned: a PGM (P5) of 16 x 32 samples, and a is a PGM (P5) of 32 x 16 samples");
    fs::write(folder.join("colour"), ppm(32, 16)).unwrap();
    fleece(&folder, &["compare", "a", "colour"]).told(1, "colour: a PPM (P6) of 32 x 16 samples, and a is a PGM (P5)");
    let mut changed = ppm(32, 16);
    *changed.last_mut().unwrap() ^= 1;
    fs::write(folder.join("changed"), changed).unwrap();
    assert!(fleece(&folder, &["compare", "colour", "changed"]).text().starts_with("different: first at column 31, row 15, blue ("));
    assert!(!folder.join("none").exists());
}

#[test]
fn sheet_is_read_back_exactly() {
    let folder = folder("sheet");
    let (original, rebuilt) = (busy(96 * 32, 5), busy(96 * 32, 6));
    fs::write(folder.join("a"), netpbm("P5", 96, 32, &original)).unwrap();
    fs::write(folder.join("b"), netpbm("P5", 96, 32, &rebuilt)).unwrap();
    let sheet = |words: &[&str], map: &[u8]| {
        let text = fleece(&folder, words).done().text();
        let read: Vec<f64> = text.lines().map(|line| line.split_once(": ").unwrap().1.parse().unwrap()).collect();
        let expected = fleecebutton::quality_sheet(6, 2, &original, &rebuilt, map).unwrap().unwrap();
        assert_eq!(read, [expected.mean_absolute_error, expected.mean_squared_error, expected.mean_signed_error]);
        text
    };
    let text = sheet(&["sheet", "a", "b"], &[1; 12]);
    let names: Vec<&str> = text.lines().map(|line| line.split_once(':').unwrap().0).collect();
    assert_eq!(names, ["mean absolute error", "mean squared error", "mean signed error"]);
    fs::write(folder.join("map"), "101 000\n000 010\n").unwrap();
    sheet(&["sheet", "a", "b", "map"], &[1, 0, 1, 0, 0, 0, 0, 0, 0, 0, 1, 0]);
    fs::write(folder.join("map"), [1, 0, 0, 0, 0, 0, 0, 0, 0, 0, 0, 1]).unwrap();
    sheet(&["sheet", "a", "b", "map"], &[1, 0, 0, 0, 0, 0, 0, 0, 0, 0, 0, 1]);
    fs::write(folder.join("map"), "000000000000").unwrap();
    assert_eq!(fleece(&folder, &["sheet", "a", "b", "map"]).done().text(), "no sheet\n");
    fs::write(folder.join("map"), "00000").unwrap();
    fleece(&folder, &["sheet", "a", "b", "map"])
        .told(1, "map: LENGTH (refusal 1): the map has 5 bytes, and of a picture of 6 x 2 macroblocks it has 12");
    fs::write(folder.join("map"), "000000 000200").unwrap();
    fleece(&folder, &["sheet", "a", "b", "map"])
        .told(1, "map: FLAGS (refusal 10) at index 9 of the map, which is macroblock 9 (column 3, row 1): the byte is 2");
    fs::write(folder.join("b"), netpbm("P5", 32, 96, &rebuilt)).unwrap();
    fleece(&folder, &["sheet", "a", "b"]).told(1, "b: 32 x 96 samples, and a has 96 x 32 samples");
    fs::write(folder.join("b"), pgm(17, 16)).unwrap();
    fleece(&folder, &["sheet", "b", "b"]).told(1, "b: 17 x 16 samples, and width and height have to be multiples of 16");
    fs::write(folder.join("b"), ppm(16, 16)).unwrap();
    fleece(&folder, &["sheet", "b", "b"]).told(1, "b: at byte 0: this is a PPM (P6), and a plane is a PGM (P5)");
    fs::write(folder.join("b"), "P5 0 16 255\n").unwrap();
    fleece(&folder, &["sheet", "b", "b"]).told(1, "b: SIZE (refusal 8)");
}

#[test]
fn inspect_accepts_what_was_coded() {
    let folder = folder("inspect");
    fs::write(folder.join("in"), pgm(48, 32)).unwrap();
    fleece(&folder, &["code", "in", "file", "theirs"]).done();
    assert_eq!(fleece(&folder, &["inspect", "file", "theirs"]).done().text(), "accepted: file is decoded to theirs, 48 x 32 samples\n");
    let mut theirs = fs::read(folder.join("theirs")).unwrap();
    let last = theirs.len() - 1;
    theirs[last] ^= 1;
    fs::write(folder.join("theirs"), &theirs).unwrap();
    fleece(&folder, &["inspect", "file", "theirs"])
        .told(1, "theirs: DIFFERS (refusal 17) at column 47, row 31 of the picture, which is sample 255 (column 15, row 15) of macroblock 5 (column 2, row 1)");
    // the same samples in another shape
    fs::write(folder.join("theirs"), pgm(32, 48)).unwrap();
    fleece(&folder, &["inspect", "file", "theirs"]).told(1, "theirs: 32 x 48 samples, and file is of 48 x 32");
    fs::write(folder.join("theirs"), ppm(48, 32)).unwrap();
    fleece(&folder, &["inspect", "file", "theirs"]).told(1, "theirs: at byte 0: this is a PPM (P6), and a plane is a PGM (P5)");
}

#[test]
fn distances_are_the_library_s() {
    let folder = folder("distance");
    for qp in [0, 28, 51] {
        let text = fleece(&folder, &["distance", &qp.to_string()]).done().text();
        assert!(text.starts_with(&format!("{} (no sample of a 4x4 block", fleecebutton::promised_distance(qp).unwrap())), "{text}");
    }
    fleece(&folder, &["distance", "52"]).told(1, "distance: QUANTIZER (refusal 2): the QP is 52, and a QP is 0 to 51");
}
