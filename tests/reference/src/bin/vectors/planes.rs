//! The functions on planes and record files.

use crate::numbers::QPS;
use crate::pictures::{self, first_refused};
use crate::request::{held, with_each, wrong_lengths};
use reference::calls::Argument::{self, Bytes, Number};
use reference::extremes::{dc_edges, dc_levels_at};
use reference::record::{self, Four, Head, Kind, Layout, Luma, Macroblock, Sixteen, MACROBLOCK};
use std::path::PathBuf;

/// The folders of outside files: the base's, of 4x4 records only; those of both kinds; those in slices, of both kinds.
const BASE: &str = ".";
const BOTH: &str = "sixteen";
const SLICES: &str = "slices";

/// The names of the outside files of a kind in a folder: `rec`, a record file; `plane`, what an outside decoder rebuilt of it;
/// `original`, the plane that an outside coder made the file of, at the QP that its name ends with.
pub fn names(folder: &str, kind: &str) -> Vec<String> {
    let files = std::fs::read_dir(format!("{OUTSIDE}/{folder}")).expect("there is tests/outside");
    let paths = files.map(|file| file.expect("it can be read").path());
    let of_kind = paths.filter(|path| path.extension().is_some_and(|other| other == kind));
    let name = |path: PathBuf| Some(format!("{folder}/{}", path.file_stem()?.to_str()?));
    let mut names: Vec<String> = of_kind.filter_map(name).collect();
    names.sort();
    names
}

const OUTSIDE: &str = concat!(env!("CARGO_MANIFEST_DIR"), "/../outside");

pub fn outside(name: &str, kind: &str) -> Vec<u8> {
    std::fs::read(format!("{OUTSIDE}/{name}.{kind}")).expect("it is in tests/outside")
}

/// Width, height and the rows of a slice.
pub fn layout([width, height, rows]: [usize; 3]) -> Layout {
    Layout {
        width,
        height,
        rows,
    }
}

// ---- coding

fn coding(
    layout: Layout,
    qp: u8,
    plane: impl Into<Vec<u8>>,
    file: usize,
    rebuilt: usize,
) -> Vec<Argument> {
    let Layout {
        width,
        height,
        rows,
    } = layout;
    let numbers = [width, height, rows, qp.into()].map(|number| Number(number as i64));
    let lent = [Bytes(plane.into()), held(file), held(rebuilt)];
    numbers.into_iter().chain(lent).collect()
}

/// Outputs of just the lengths of a plane.
fn coding_whole(layout: Layout, qp: u8, plane: Vec<u8>) -> Vec<Argument> {
    let (file, rebuilt) = (layout.area(), plane.len());
    coding(layout, qp, plane, file, rebuilt)
}

pub fn code_plane() -> Vec<Vec<Argument>> {
    let good = coding_whole(layout([1, 1, 1]), 28, vec![0; 256]);
    [
        bad_sizes(),
        bad_rows(),
        wrong_lengths(&coding_whole(layout([2, 1, 1]), 28, vec![0; 512])),
        wrong_lengths(&coding_whole(layout([1, 2, 1]), 28, vec![0; 512])),
        just_used(),
        with_each(&good, 3, &QPS),
        drawn(),
        originals(BASE).map(|(_, request)| request).collect(),
        originals(BOTH).map(as_outside).collect(),
        originals(SLICES).map(as_outside).collect(),
    ]
    .concat()
}

/// The outside's originals, with their names.
fn originals(folder: &str) -> impl Iterator<Item = (String, Vec<Argument>)> {
    names(folder, "original").into_iter().map(|name| {
        let file = outside(&name, "rec");
        let layout = record::read_head(&file).expect("it is a record file");
        let qp = name.rsplit('-').next().and_then(|qp| qp.parse().ok());
        let qp = qp.expect("its name ends with the QP");
        let request = coding_whole(layout, qp, outside(&name, "original"));
        (name, request)
    })
}

/// Held to the outside's file, behind which the area keeps its bytes, and to its rebuilt plane. (What the base's coder made of the
/// base's originals is now made of them where 16x16 wins nowhere; tests/planes.rs has it.)
fn as_outside((name, request): (String, Vec<Argument>)) -> Vec<Argument> {
    let [.., Bytes(area), _] = request.as_slice() else {
        unreachable!()
    };
    let file = outside(&name, "rec");
    let file = [file.as_slice(), &area[file.len()..]].concat();
    let expected = [file, outside(&name, "plane")];
    left(reference::calls::code_plane, &request, &expected);
    request
}

/// An area that has no more bytes than the coder would use, for one slice and for two.
fn just_used() -> Vec<Vec<Argument>> {
    let of = |height| {
        let layout = layout([2, height, 2]);
        let plane = plain(layout, |x, y| x + y);
        let mut whole = coding_whole(layout, 20, plane.clone());
        let used = reference::calls::code_plane(&mut whole).expect("it is a good request");
        let used = used as usize;
        assert!(used < layout.area(), "16x16 wins nowhere");
        coding(layout, 20, plane, used, layout.samples())
    };
    [2, 3].map(of).to_vec()
}

/// Sizes with the lengths of a 1x1 plane, which would fit the greatest one too if its product wrapped, to 1; at QP 28, and two of them
/// at QP 52: the size is asked before the lengths, and those before the QP.
fn bad_sizes() -> Vec<Vec<Argument>> {
    const MAX: usize = usize::MAX;
    let of = |size, qp| coding(layout(size), qp, [0; 256], 8 + MACROBLOCK, 256);
    let sizes = [
        [0, 1, 1],
        [1, 0, 1],
        [1, 0, 0],
        [129, 1, 1],
        [1, 129, 129],
        [MAX, 1, 1],
        [1, MAX, 1],
        [MAX, MAX, MAX],
        [128, 1, 1],
        [1, 128, 128],
    ];
    let at_28 = sizes.map(|size| of(size, 28));
    [at_28.as_slice(), &[of([129, 1, 1], 52), of([2, 1, 1], 52)]].concat()
}

/// Rows of a slice that are none, with the area for either head; at QP 28 and 52. Rows that are some, with the area for the other head.
fn bad_rows() -> Vec<Vec<Argument>> {
    let of = |[rows, head, qp]: [usize; 3]| {
        let area = head + 2 * MACROBLOCK;
        coding(layout([1, 2, rows]), qp as u8, [0; 512], area, 512)
    };
    let rows = [0, 3, 256, 65535, usize::MAX];
    let none = rows.map(|rows| [[rows, 8, 28], [rows, 10, 28], [rows, 10, 52]]);
    let other = [[1, 8, 28], [2, 10, 28], [1, 8, 52], [1, 10, 52]];
    none.into_iter().flatten().chain(other).map(of).collect()
}

/// A ramp under noise, so that the coder has several modes to choose, at several sizes and QPs; and plain ones, on which 16x16 wins:
/// a slope, rows, columns, and grey, where it ties with 4x4. In one slice and in several, the last of them also shorter.
fn drawn() -> Vec<Vec<Argument>> {
    let sizes = [[1, 1, 1], [2, 1, 1], [1, 3, 3], [3, 2, 2], [4, 4, 4]];
    let in_slices = [[1, 3, 1], [1, 3, 2], [3, 2, 1], [4, 4, 3]];
    let ramp = |size: [usize; 3]| {
        let layout = layout(size);
        let mut noise = 1;
        let mut sample = |place: usize| {
            noise = (noise * 75 + 74) % 65537;
            ((place / 5 + noise % 48) % 256) as u8
        };
        let plane: Vec<u8> = (0..layout.samples()).map(&mut sample).collect();
        move |qp: u8| coding_whole(layout, qp, plane.clone())
    };
    let one_slice = sizes.map(|size| [0, 17, 28, 51].map(ramp(size))).concat();
    let some = in_slices.map(|size| [17, 44].map(ramp(size))).concat();
    let rules: [([usize; 3], u8, Rule); 9] = [
        ([1, 1, 1], 28, |_, _| 128),
        ([2, 2, 2], 0, |x, y| x + 2 * y),
        ([3, 3, 3], 44, |x, y| 255 - 2 * x - 3 * y),
        ([2, 3, 3], 20, |x, _| x * x % 199),
        ([3, 2, 2], 20, |_, y| y * y % 199),
        ([2, 2, 1], 0, |x, y| x + 2 * y),
        ([3, 3, 2], 44, |x, y| 255 - 2 * x - 3 * y),
        ([2, 3, 1], 20, |x, _| x * x % 199),
        ([2, 4, 3], 20, |_, y| y * y % 199),
    ];
    let on_plain = rules.map(|(size, qp, rule)| {
        let layout = layout(size);
        coding_whole(layout, qp, plain(layout, rule))
    });
    [one_slice, some, on_plain.to_vec()].concat()
}

/// The sample in column x of row y.
type Rule = fn(usize, usize) -> usize;

/// A plane by a rule.
pub fn plain(layout: Layout, sample: Rule) -> Vec<u8> {
    let stride = 16 * layout.width;
    let places = 0..layout.samples();
    places
        .map(|place| sample(place % stride, place / stride) as u8)
        .collect()
}

/// Holds what the reference leaves in the outputs to these.
pub fn left(call: reference::calls::Call, request: &[Argument], expected: &[Vec<u8>]) {
    let mut left = request.to_vec();
    call(&mut left).expect("it is a good request");
    let expected: Vec<Argument> = expected.iter().cloned().map(Bytes).collect();
    assert!(left.ends_with(&expected), "the outside has another answer");
}

// ---- reading a head

/// The head of one slice of any size.
pub fn head(width: u16, height: u16) -> Vec<u8> {
    Head::Old.written(width, height, height)
}

/// Of both kinds: cut and longer; with each byte changed to 0, 255, its complement and one more; of sizes in and out of range. Of the new
/// one: rows in and out of range. Its mark, and two that are none, before 8, 9 and 10 bytes in all that end with their sum; and marks that
/// are none with 2, 3 and 7 bytes in all.
pub fn read_head() -> Vec<Vec<Argument>> {
    let of_kind = |kind: Head| {
        let good = kind.written(3, 2, 1);
        let longer = [good.clone(), vec![0]].concat();
        let cut = (0..=longer.len()).map(|length| longer[..length].to_vec());
        let other = (0..good.len()).flat_map(|place| {
            let old = good[place];
            let all = [0, 255, !old, old.wrapping_add(1)].map(|byte| changed(&good, place, byte));
            all.into_iter()
                .filter(|file| *file != good)
                .collect::<Vec<_>>()
        });
        let sides = [0, 1, 128, 129, 256, 65535];
        let sizes = sides.map(|side| [kind.written(side, 1, 1), kind.written(1, side, 1)]);
        cut.chain(other).chain(sizes.concat()).collect::<Vec<_>>()
    };
    let rows = [[128, 127], [128, 128], [128, 129], [1, 1], [3, 2], [0, 0]];
    let rows = rows.map(|[height, rows]| Head::New.written(1, height, rows));
    let none = [0, 4, 256, 258, 32768, 65535].map(|rows| Head::New.written(1, 3, rows));
    let marked = ["HS", "HE", "IS"].map(|mark| {
        let ten = [mark.as_bytes(), &[0, 1, 0, 1, 0, 1, 0, 0]].concat();
        [8, 9, 10].map(|length| mended(ten[..length].to_vec()))
    });
    let short = ["HE", "IS"].map(|mark| {
        let seven = [mark.as_bytes(), &[0, 1, 0, 1, 0]].concat();
        [2, 3, 7].map(|length| seven[..length].to_vec())
    });
    let files = Head::ALL.map(of_kind).concat().into_iter();
    let files = files.chain(rows).chain(none);
    let files = files.chain(marked.concat()).chain(short.concat());
    files.map(|file| vec![Bytes(file)]).collect()
}

pub fn changed(file: &[u8], place: usize, byte: u8) -> Vec<u8> {
    let mut file = file.to_vec();
    file[place] = byte;
    file
}

/// With the sum of a record's earlier bytes in its last two.
pub fn mended(mut record: Vec<u8>) -> Vec<u8> {
    let end = record.len() - 2;
    let sum: u16 = record[..end].iter().map(|&byte| u16::from(byte)).sum();
    record[end..].copy_from_slice(&sum.to_be_bytes());
    record
}

// ---- decoding

fn decoding(file: Vec<u8>, plane: usize) -> Vec<Argument> {
    vec![Bytes(file), held(plane)]
}

pub fn decode_plane() -> Vec<Vec<Argument>> {
    let names = [BASE, BOTH, SLICES]
        .map(|folder| names(folder, "rec"))
        .concat();
    let as_outside = names.into_iter().map(|name| {
        let plane = outside(&name, "plane");
        let request = decoding(outside(&name, "rec"), plane.len());
        left(reference::calls::decode_plane, &request, &[plane]);
        request
    });
    let sizes = [[0, 1], [1, 0], [129, 1], [1, 129], [1, 1], [128, 128]];
    let heads = sizes.map(|[width, height]| decoding(head(width, height), 256));
    [
        heads.to_vec(),
        fields(),
        damaged("random-04"),
        damaged("sixteen/random-02"),
        changed_and_cut("slices/random-06"),
        surplus(),
        other_marks(),
        no_marks(),
        damaged_heads(),
        new_heads_of_one_slice(),
        modes_in_slices(),
        contents_of_sixteen(),
        predictions_of_sixteen(),
        dc_ends(),
        back(),
        as_outside.collect(),
        pictures::decode_luma(),
    ]
    .concat()
}

/// A 2x1 file whose records are changed in their mark, number, QP, a mode, the first and the last level and the sum, or not at all;
/// its head changed; and one whose content no decoder takes.
fn fields() -> Vec<Vec<Argument>> {
    let file = |modes: [u8; 16], last: [i16; 2]| {
        let mut levels = [[0; 16]; 16];
        levels[0] = [
            17, 0, -1, 3, -2, -1, 0, 0, 1, -2, -1, 1, -5, 2, last[0], last[1],
        ];
        let qp = 28;
        let record = |number| {
            Macroblock {
                qp,
                luma: Luma::Four(Four { modes, levels }),
                chroma: None,
            }
            .record(number)
        };
        [head(2, 1), record(0), record(1)].concat()
    };
    let good = file([2; 16], [-5, -1]);
    let modes = [2, 0, 1, 3, 4, 5, 6, 7, 8, 2, 2, 2, 0, 1, 2, 8];
    let bad = file(modes, [32767, -32768]);
    let places = [0, 1, 2, 3, 4, 5, 14, 524, 525, 526];
    let head = Head::Old.bytes();
    let records = [head, head + MACROBLOCK];
    let all = records
        .into_iter()
        .flat_map(|record| places.map(|place| record + place));
    let files = all
        .chain([0])
        .map(|place| changed(&good, place, 255))
        .chain([bad, good.clone()]);
    files.map(|file| decoding(file, 512)).collect()
}

/// An outside file with each byte complemented, and each of its beginnings.
fn changed_and_cut(name: &str) -> Vec<Vec<Argument>> {
    let (file, plane) = (outside(name, "rec"), outside(name, "plane").len());
    let complemented = (0..file.len()).map(|place| changed(&file, place, !file[place]));
    let cut = (0..file.len()).map(|length| file[..length].to_vec());
    let files = complemented.chain(cut);
    files.map(|file| decoding(file, plane)).collect()
}

/// The same, with wrong lengths, and with each byte exchanged for the next one, which leaves the sum as it is.
fn damaged(name: &str) -> Vec<Vec<Argument>> {
    let (file, plane) = (outside(name, "rec"), outside(name, "plane").len());
    let exchanged = (1..file.len()).map(|place| {
        let mut file = file.clone();
        file.swap(place - 1, place);
        decoding(file, plane)
    });
    let lengths = wrong_lengths(&decoding(file.clone(), plane)).into_iter();
    let requests = lengths.chain(changed_and_cut(name)).chain(exchanged);
    refused_first(requests)
}

/// A 1x2 file in two slices with each byte of its head changed to 0, its complement and one more, also with the sum mended; cut in its head
/// and in the mark behind it; and with heads that say other rows.
fn damaged_heads() -> Vec<Vec<Argument>> {
    let [_, blank] = blanks();
    let records = [blank.record(0), blank.record(1)].concat();
    let with_head = |head: Vec<u8>| [head, records.clone()].concat();
    let good = Head::New.written(1, 2, 1);
    let bytes = (0..good.len()).flat_map(|place| {
        let old = good[place];
        [0, !old, old.wrapping_add(1)].map(|byte| changed(&good, place, byte))
    });
    let bytes: Vec<Vec<u8>> = bytes.filter(|head| *head != good).collect();
    let with_sum = bytes.iter().cloned().map(mended);
    let rows = [0, 1, 2, 3, 65535].map(|rows| Head::New.written(1, 2, rows));
    let whole = bytes.iter().cloned().chain(with_sum).chain(rows);
    let cut = (0..=12).map(|length| with_head(good.clone())[..length].to_vec());
    let files = whole.map(with_head).chain(cut);
    refused_first(files.map(|file| decoding(file, 512)))
}

/// The new head before the outside's records in one slice; also where the file is cut, or its last sum is wrong, which stands by its place.
fn new_heads_of_one_slice() -> Vec<Vec<Argument>> {
    let name = "sixteen/random-02";
    let (file, plane) = (outside(name, "rec"), outside(name, "plane"));
    let longer = [Head::New.written(2, 1, 1), file[8..].to_vec()].concat();
    let cut = longer[..longer.len() - 1].to_vec();
    let broken = changed(&longer, longer.len() - 1, !longer[longer.len() - 1]);
    let request = decoding(longer, plane.len());
    left(
        reference::calls::decode_plane,
        &request,
        std::slice::from_ref(&plane),
    );
    let refused = [cut, broken].map(|file| decoding(file, plane.len()));
    [refused.as_slice(), &[request]].concat()
}

/// A 2x3 file in slices of one row, of two and of three: each macroblock of its second row in turn with every mode of 16x16, and with every
/// mode of 4x4 in each of the blocks of the upper edge and in one below them.
fn modes_in_slices() -> Vec<Vec<Argument>> {
    let slope = [9, 8, 7, 6, 5, 4, 3, 2, 1, 0, -1, -2, -3, -4, -5, -6];
    let ground = sixteen(20, 2, slope, [[0; 15]; 16]);
    let whole = (0..4).map(|mode| sixteen(20, mode, slope, [[0; 15]; 16]));
    let fours = (0..9).flat_map(|mode| {
        [0, 1, 4, 5, 2].map(|block| {
            let mut modes = [2; 16];
            modes[block] = mode;
            let luma = Luma::Four(Four {
                modes,
                levels: [[0; 16]; 16],
            });
            Macroblock {
                qp: 20,
                luma,
                chroma: None,
            }
        })
    });
    let all: Vec<Macroblock> = whole.chain(fours).collect();
    let in_slices = |rows: usize| {
        let ground = ground.clone();
        let of = move |(number, one): (usize, &Macroblock)| {
            let mut macroblocks = vec![ground.clone(); 6];
            macroblocks[number] = one.clone();
            let file = record::file(layout([2, 3, rows]), &macroblocks);
            decoding(file.expect("it is a size"), 1536)
        };
        let at = |number| all.iter().map(move |one| (number, one));
        at(2).chain(at(3)).map(of).collect::<Vec<_>>()
    };
    refused_first((1..=3).flat_map(in_slices))
}

fn refused_first(requests: impl Iterator<Item = Vec<Argument>>) -> Vec<Vec<Argument>> {
    first_refused(reference::calls::decode_plane, requests)
}

/// Bytes behind the last record: one, a mark, one record more of either kind, and of both; also where the sum of the first record is
/// wrong, which comes before them, and where its QP is none, which comes behind.
fn surplus() -> Vec<Vec<Argument>> {
    let [four, sixteen] = blanks().map(|blank| blank.record(1));
    let both = [four.clone(), sixteen.clone()].concat();
    let more = [vec![0], Kind::Sixteen.mark().to_vec(), four, sixteen, both];
    let records = blanks().map(|blank| {
        let mut broken = blank.record(0);
        *broken.last_mut().expect("it has a sum") ^= 1;
        let illegal = Macroblock {
            qp: 52,
            ..blank.clone()
        };
        [blank.record(0), broken, illegal.record(0)]
    });
    let records = records.into_iter().flatten();
    let longer = |record: Vec<u8>| {
        let file = [head(1, 1), record].concat();
        more.clone()
            .map(|more| decoding([file.clone(), more].concat(), 256))
    };
    records.flat_map(longer).collect()
}

/// A record that has the other kind's mark, and no other sum or that of its kind's length; a 4x4 record then has 7 bytes behind it.
fn other_marks() -> Vec<Vec<Argument>> {
    let marked = blanks().map(|macroblock| {
        let mut record = macroblock.record(0);
        let other = Kind::LUMA
            .into_iter()
            .find(|&kind| kind != macroblock.kind());
        let other = other.expect("there are two kinds");
        record[..2].copy_from_slice(&other.mark());
        let mut longer = record.clone();
        longer.resize(longer.len().max(other.bytes()), 0);
        let behind = longer.split_off(other.bytes());
        [record, [mended(longer), behind].concat()]
    });
    let files = marked.as_flattened().iter();
    let files = files.map(|record| [&head(1, 1), record.as_slice()].concat());
    files.map(|file| decoding(file, 256)).collect()
}

/// A record with a mark that is none, whole, with its sum mended, and cut in the mark, behind it and before its last byte: the mark comes
/// before the rest.
fn no_marks() -> Vec<Vec<Argument>> {
    let marked = blanks().map(|macroblock| {
        let mut record = macroblock.record(0);
        record[1] = b'X';
        let cut = [1, 2, 3, record.len() - 1].map(|length| record[..length].to_vec());
        [cut.as_slice(), &[record.clone(), mended(record)]].concat()
    });
    let heads = [head(1, 1), Head::New.written(1, 1, 1)];
    let files = heads.map(|head| {
        let files = marked.iter().flatten();
        files.map(move |record| [head.as_slice(), record].concat())
    });
    let files = files.into_iter().flatten();
    files.map(|file| decoding(file, 256)).collect()
}

/// A macroblock of each kind without content.
pub fn blanks() -> [Macroblock; 2] {
    let (modes, levels) = ([2; 16], [[0; 16]; 16]);
    let four = Macroblock {
        qp: 28,
        luma: Luma::Four(Four { modes, levels }),
        chroma: None,
    };
    [four, sixteen(28, 2, [0; 16], [[0; 15]; 16])]
}

fn sixteen(qp: u8, mode: u8, dc: [i16; 16], ac: [[i16; 15]; 16]) -> Macroblock {
    Macroblock {
        qp,
        luma: Luma::Sixteen(Sixteen { mode, dc, ac }),
        chroma: None,
    }
}

/// A 2x2 file of 16x16 records, each of which is in turn given every mode and some that are none, QPs behind the end beside a mode that
/// is none, and an AC level out of range in every block: alone, beside DC values out of range, and beside a mode that is none.
fn contents_of_sixteen() -> Vec<Vec<Argument>> {
    let (slope, flat) = (
        [9, 8, 7, 6, 5, 4, 3, 2, 1, 0, -1, -2, -3, -4, -5, -6],
        [[0; 15]; 16],
    );
    let modes = [0, 1, 2, 3, 4, 255].map(|mode| sixteen(20, mode, slope, flat));
    let qps = [51, 52, 255].map(|qp| sixteen(qp, 4, slope, flat));
    let ranges = (0..16).flat_map(|block| {
        let mut ac = flat;
        ac[block][14 - block % 15] = -32768;
        [(2, slope), (2, [32767; 16]), (4, slope)].map(|(mode, dc)| sixteen(20, mode, dc, ac))
    });
    let bad: Vec<Macroblock> = modes.into_iter().chain(qps).chain(ranges).collect();
    let in_turn = (0..4).flat_map(|number| {
        bad.iter().map(move |bad| {
            let mut all = vec![sixteen(20, 2, slope, flat); 4];
            all[number] = bad.clone();
            decoding(
                record::file(layout([2, 2, 2]), &all).expect("it is a size"),
                1024,
            )
        })
    });
    refused_first(in_turn)
}

/// 16x16 predictions that one sum more or less would change: means of sides whose sum is a half, or one less; and planes that are
/// clipped.
fn predictions_of_sixteen() -> Vec<Vec<Argument>> {
    let mean = |width, height, rest| {
        let layout = Layout::one_slice(width, height);
        let mut files = (1..).map(|seed| before_flat(layout, seed));
        let file = files.find(|file| sum_beside_last(layout, file) == rest);
        decoding(file.expect("some sum is this"), layout.samples())
    };
    let steep = |first: i16, others: i16| {
        let flat = |mode, level| {
            let mut dc = [0; 16];
            dc[0] = level;
            sixteen(20, mode, dc, [[0; 15]; 16])
        };
        let all = [flat(2, first), flat(2, others), flat(2, others), flat(3, 0)];
        decoding(
            record::file(layout([2, 2, 2]), &all).expect("it is a size"),
            1024,
        )
    };
    vec![
        mean(2, 1, 7),
        mean(2, 1, 8),
        mean(1, 2, 7),
        mean(1, 2, 8),
        mean(2, 2, 15),
        mean(2, 2, 16),
        steep(-1200, 1200),
        steep(1200, -1200),
    ]
}

/// Drawn 16x16 records of the DC mode before a last one without levels.
fn before_flat(layout: Layout, seed: u32) -> Vec<u8> {
    let mut state = seed;
    let mut all = vec![sixteen(12, 2, [0; 16], [[0; 15]; 16]); layout.macroblocks()];
    let (_, drawn) = all.split_last_mut().expect("there is one");
    for macroblock in drawn {
        let mut ac = [[0; 15]; 16];
        for level in ac.as_flattened_mut() {
            state = state.wrapping_mul(1664525).wrapping_add(1013904223);
            *level = (state >> 30) as i16 - 1;
        }
        *macroblock = sixteen(12, 2, [3; 16], ac);
    }
    record::file(layout, &all).expect("it is a size")
}

/// What the samples beside the last macroblock add up to: the remainder by 16 for a side.
fn sum_beside_last(layout: Layout, file: &[u8]) -> u32 {
    let mut plane = vec![0; layout.samples()];
    reference::decode_plane(file, &mut plane).expect("its levels are small");
    let stride = 16 * layout.width;
    let (x, y) = (stride - 16, 16 * (layout.height - 1));
    let above = (0..16).filter_map(|k| Some((x + k, y.checked_sub(1)?)));
    let left = (0..16).filter_map(|k| Some((x.checked_sub(1)?, y + k)));
    let beside: Vec<u32> = above
        .chain(left)
        .map(|(x, y)| plane[stride * y + x].into())
        .collect();
    beside.iter().sum::<u32>() % beside.len() as u32
}

/// For every QP the DC values next to the ends of 16 bits, in a 1x1 file, each at another place.
fn dc_ends() -> Vec<Vec<Argument>> {
    let of_qp = |qp: u8| {
        let edges = dc_edges(qp).expect("it is a QP");
        (0..).zip(edges).map(move |(edge, (sum, _))| {
            let dc = dc_levels_at((usize::from(qp) + 5 * edge) % 16, sum);
            let all = [sixteen(qp, 2, dc, [[0; 15]; 16])];
            let file = record::file(Layout::one_slice(1, 1), &all);
            decoding(file.expect("it is a size"), 256)
        })
    };
    refused_first((0..=51).flat_map(of_qp))
}

/// The files that the coder makes of the drawn planes: the bytes that it used.
fn back() -> Vec<Vec<Argument>> {
    let of = |mut request: Vec<Argument>| {
        let used = reference::calls::code_plane(&mut request).expect("it is a good request");
        let [.., Bytes(file), Bytes(rebuilt)] = request.as_slice() else {
            unreachable!()
        };
        let request = decoding(file[..used as usize].to_vec(), rebuilt.len());
        left(
            reference::calls::decode_plane,
            &request,
            std::slice::from_ref(rebuilt),
        );
        request
    };
    drawn().into_iter().map(of).collect()
}
