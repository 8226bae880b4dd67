//! The functions on colour pictures.

use crate::numbers::QPS;
use crate::planes::{blanks, changed, head, layout, left, mended, names, outside, plain};
use crate::request::{held, with, with_each, wrong_lengths};
use reference::calls::Argument::{self, Bytes, Number};
use reference::calls::Call;
use reference::record::{self, Chroma, ChromaLevels, Layout, Macroblock};

/// The folder of outside files in colour: `plane` and `original` have luma, Cb and Cr one behind the other.
const COLOUR: &str = "colour";

/// Luma, Cb and Cr.
type Planes = [Vec<u8>; 3];

fn parted(layout: Layout, all: &[u8]) -> Planes {
    let (luma, chroma) = all.split_at(layout.samples());
    let (cb, cr) = chroma.split_at(layout.chroma_samples());
    [luma, cb, cr].map(<[u8]>::to_vec)
}

// ---- coding

fn coding(layout: Layout, qp: u8, offsets: [i32; 2], planes: Planes) -> Vec<Argument> {
    let Layout {
        width,
        height,
        rows,
    } = layout;
    let numbers = [width, height, rows, qp.into()].map(|number| Number(number as i64));
    let offsets = offsets.map(|offset| Number(offset.into()));
    let outputs = planes.each_ref().map(|plane| held(plane.len()));
    let numbers = numbers.into_iter().chain(offsets);
    let lent = planes
        .map(Bytes)
        .into_iter()
        .chain([held(layout.colour_area())]);
    numbers.chain(lent).chain(outputs).collect()
}

/// Where the offsets and the file stand among the arguments.
const OFFSETS: [usize; 2] = [4, 5];
const FILE: usize = 9;

fn grey(layout: Layout) -> Planes {
    let chroma = layout.chroma_samples();
    [layout.samples(), chroma, chroma].map(|length| vec![128; length])
}

pub fn code_picture() -> Vec<Vec<Argument>> {
    let small = |size| coding(layout(size), 28, [3, -4], grey(layout(size)));
    let good = small([1, 1, 1]);
    [
        bad_sizes(),
        wrong_lengths(&small([2, 1, 1])),
        wrong_lengths(&small([1, 2, 1])),
        other_areas(),
        with_each(&good, 3, &QPS),
        bad_offsets(&good),
        drawn(),
        originals(),
    ]
    .concat()
}

/// Sizes and rows that are none, with the slices of a 1x2 picture; also with a QP and offsets that are none, which come behind.
fn bad_sizes() -> Vec<Vec<Argument>> {
    const MAX: i64 = usize::MAX as i64;
    let good = coding(layout([1, 2, 1]), 28, [0, 0], grey(layout([1, 2, 1])));
    let worse = with(&with(&good, 3, Number(52)), 4, Number(13));
    let sizes = [0, 129, 256, MAX];
    let rows = [0, 3, 256, 65535, MAX];
    [good, worse]
        .iter()
        .flat_map(|it| {
            [(0, sizes.as_slice()), (1, &sizes), (2, &rows)].map(|(at, all)| with_each(it, at, all))
        })
        .flatten()
        .collect()
}

/// Areas for the other head, for a mono file, and of just the bytes that would be used.
fn other_areas() -> Vec<Vec<Argument>> {
    let of = |size: [usize; 3]| {
        let layout = layout(size);
        let planes = pictured(layout, |x, y| x + y);
        let good = coding(layout, 20, [1, 2], planes);
        let mut coded = good.clone();
        let used = reference::calls::code_picture(&mut coded).expect("it is a good request");
        let used = used as usize;
        assert!(used < layout.colour_area(), "16x16 wins nowhere");
        let records = layout.colour_area() - layout.head().bytes();
        let lengths = [records + 8, records + 10, layout.area(), used];
        lengths.map(|length| with(&good, FILE, held(length)))
    };
    [[2, 2, 2], [2, 3, 2]].map(of).concat()
}

/// Offsets at their ends, just behind them, at the ends of a byte and of 32 bits, and some whose low byte is a legal offset.
fn bad_offsets(good: &[Argument]) -> Vec<Vec<Argument>> {
    let offsets = [-12, 12, -13, 13, -128, 127, 256, -256, 244, -244, 1 << 24];
    let ends = [i32::MIN, i32::MAX].map(i64::from);
    let all = [offsets.as_slice(), &ends].concat();
    let alone = OFFSETS.map(|place| with_each(good, place, &all)).concat();
    let both = [[13, -13], [-12, 12], [12, -12]];
    let both = both.map(|[cb, cr]| with(&with(good, 4, Number(cb)), 5, Number(cr)));
    [alone, both.to_vec()].concat()
}

/// The sample in column x of row y.
type Rule = fn(usize, usize) -> usize;

/// Luma by a rule, and chroma by it turned: rows for columns, and backwards.
fn pictured(layout: Layout, rule: Rule) -> Planes {
    let stride = 8 * layout.width;
    let chroma = |sample: &dyn Fn(usize, usize) -> usize| {
        let places = 0..layout.chroma_samples();
        places
            .map(|place| sample(place % stride, place / stride) as u8)
            .collect()
    };
    let cb = chroma(&|x, y| rule(2 * y, 2 * x));
    let cr = chroma(&|x, y| 255 - rule(3 * x, y) % 256);
    [plain(layout, rule), cb, cr]
}

/// Pictures on which each mode of chroma is chosen, and noise over a ramp; in one slice and in several, the last of them also shorter.
fn drawn() -> Vec<Vec<Argument>> {
    let rules: [Rule; 6] = [
        |_, _| 128,
        |x, y| x + 2 * y,
        |x, y| 255 - 2 * x - 3 * y,
        |x, _| x * x % 199,
        |_, y| y * y % 199,
        |x, y| (x * 7 + y * 13) % 61 * 4,
    ];
    let sizes = [
        [1, 1, 1],
        [2, 2, 2],
        [2, 2, 1],
        [3, 3, 2],
        [4, 4, 4],
        [4, 4, 3],
    ];
    let settings = [(0, [12, -12]), (20, [0, 0]), (33, [-5, 7]), (51, [12, 3])];
    let mut requests = vec![];
    for (number, rule) in rules.into_iter().enumerate() {
        for (place, size) in sizes.into_iter().enumerate() {
            let (qp, offsets) = settings[(number + place) % settings.len()];
            let layout = layout(size);
            requests.push(coding(layout, qp, offsets, pictured(layout, rule)));
        }
    }
    let layout = layout([3, 2, 1]);
    let mut noise = 1;
    let planes = grey(layout).map(|plane| {
        let sample = |place: usize| {
            noise = (noise * 75 + 74) % 65537;
            ((place / 5 + noise % 48) % 256) as u8
        };
        (0..plane.len()).map(sample).collect()
    });
    requests.extend(settings.map(|(qp, offsets)| coding(layout, qp, offsets, planes.clone())));
    requests
}

/// The outside's originals, held to its files, behind which the area keeps its bytes, and to its rebuilt planes. The offsets stand in the
/// chroma records.
fn originals() -> Vec<Vec<Argument>> {
    let of = |name: String| {
        let file = outside(&name, "rec");
        let layout = record::read_head(&file).expect("it is a record file");
        let macroblocks = record::read_records(&file, layout.macroblocks());
        let first = &macroblocks.expect("it is whole")[0];
        let chroma = first.chroma.as_ref().expect("it is colour");
        let qp = name.rsplit('-').next().and_then(|qp| qp.parse().ok());
        let qp = qp.expect("its name ends with the QP");
        let planes = parted(layout, &outside(&name, "original"));
        let request = coding(layout, qp, chroma.offsets.map(i32::from), planes);
        let Bytes(area) = &request[FILE] else {
            unreachable!()
        };
        let file = [file.as_slice(), &area[file.len()..]].concat();
        let rebuilt = parted(layout, &outside(&name, "plane"));
        let expected = [&[file], rebuilt.as_slice()].concat();
        left(reference::calls::code_picture, &request, &expected);
        request
    };
    names(COLOUR, "original").into_iter().map(of).collect()
}

// ---- decoding

/// With planes of the lengths that the file's head says, or of a 1x1 picture where it says none.
fn decoding(file: Vec<u8>) -> Vec<Argument> {
    let layout = record::read_head(&file).unwrap_or(Layout::one_slice(1, 1));
    lending(file, layout)
}

fn lending(file: Vec<u8>, layout: Layout) -> Vec<Argument> {
    let chroma = layout.chroma_samples();
    let planes = [layout.samples(), chroma, chroma].map(held);
    [Bytes(file)].into_iter().chain(planes).collect()
}

pub fn decode_picture() -> Vec<Vec<Argument>> {
    let as_outside = names(COLOUR, "rec").into_iter().map(|name| {
        let request = decoding(outside(&name, "rec"));
        let layout = record::read_head(&outside(&name, "rec")).expect("it is a record file");
        let planes = parted(layout, &outside(&name, "plane"));
        left(reference::calls::decode_picture, &request, &planes);
        request
    });
    let files = refused_files();
    [
        lengths(),
        refused_first(changed_and_cut("colour/random-02").into_iter()),
        refused_first(exchanged("colour/random-02").into_iter()),
        refused_first(files.into_iter().map(decoding)),
        back(),
        mono(),
        as_outside.collect(),
    ]
    .concat()
}

/// Files of which most are refused for a chroma record.
pub fn refused_files() -> Vec<Vec<u8>> {
    [order(), behind_one_macroblock(), contents()].concat()
}

/// The same files for `fb_decode_plane`, which gives luma alone: the outside's, and those that chroma is refused in.
pub fn decode_luma() -> Vec<Vec<Argument>> {
    let luma = |request: Vec<Argument>| request[..2].to_vec();
    let files = refused_files().into_iter().map(decoding).map(luma);
    let as_outside = names(COLOUR, "rec").into_iter().map(|name| {
        let request = luma(decoding(outside(&name, "rec")));
        let Bytes(plane) = &request[1] else {
            unreachable!()
        };
        let expected = outside(&name, "plane")[..plane.len()].to_vec();
        left(reference::calls::decode_plane, &request, &[expected]);
        request
    });
    [
        first_refused(reference::calls::decode_plane, files),
        as_outside.collect(),
    ]
    .concat()
}

fn refused_first(requests: impl Iterator<Item = Vec<Argument>>) -> Vec<Vec<Argument>> {
    first_refused(reference::calls::decode_picture, requests)
}

/// Those that are refused stand first: their outputs are alike.
pub fn first_refused(
    call: Call,
    requests: impl Iterator<Item = Vec<Argument>>,
) -> Vec<Vec<Argument>> {
    let refused = |request: &Vec<Argument>| call(&mut request.clone()).is_err();
    let (refused, decoded): (Vec<_>, Vec<_>) = requests.partition(refused);
    [refused, decoded].concat()
}

/// Sizes that are none; each plane, and the file, one short, one long and empty, of a colour file and of a mono one.
fn lengths() -> Vec<Vec<Argument>> {
    let sizes = [[0, 1], [1, 0], [129, 1], [1, 129], [1, 1], [128, 128]];
    let heads = sizes.map(|[width, height]| lending(head(width, height), Layout::one_slice(1, 1)));
    let files = ["colour/random-01", "random-01"].map(|name| outside(name, "rec"));
    let wrong = files.map(|file| wrong_lengths(&decoding(file))).concat();
    [heads.to_vec(), wrong].concat()
}

/// With each byte complemented, and cut to each length below its own.
fn changed_and_cut(name: &str) -> Vec<Vec<Argument>> {
    let file = outside(name, "rec");
    let layout = record::read_head(&file).expect("it is a record file");
    let places = 0..file.len();
    let all =
        places.flat_map(|place| [changed(&file, place, !file[place]), file[..place].to_vec()]);
    all.map(|file| lending(file, layout)).collect()
}

/// With each byte exchanged for the next one, which a sum does not show.
fn exchanged(name: &str) -> Vec<Vec<Argument>> {
    let file = outside(name, "rec");
    let layout = record::read_head(&file).expect("it is a record file");
    let swapped = |place: usize| {
        let mut file = file.clone();
        file.swap(place - 1, place);
        lending(file, layout)
    };
    (1..file.len()).map(swapped).collect()
}

/// Macroblocks of both luma kinds with chroma in which no two samples of an edge are alike.
fn ground() -> [Macroblock; 4] {
    std::array::from_fn(|number| Macroblock {
        chroma: Some(chroma(number)),
        ..blanks()[number % 2].clone()
    })
}

fn chroma(number: usize) -> Chroma {
    let levels = |plane: i16| ChromaLevels {
        dc: std::array::from_fn(|index| [7, -3, 5, 2][(index + number) % 4] - plane),
        ac: std::array::from_fn(|block| {
            let mut ac = [0; 15];
            ac[..3].copy_from_slice(&[block as i16 - 2, 2 - plane, block as i16 * plane % 3]);
            ac
        }),
    };
    Chroma {
        offsets: [-2, 3],
        mode: 0,
        levels: [levels(0), levels(4)],
    }
}

fn file(rows: usize, macroblocks: &[Macroblock]) -> Vec<u8> {
    record::file(layout([2, 2, rows]), macroblocks).expect("it is a size")
}

/// The records of a 2x2 colour file, of which chroma's are the odd ones, in other orders: left out, doubled, moved; and chroma records in
/// mono files.
fn order() -> Vec<Vec<u8>> {
    const ORDERS: [&[usize]; 18] = [
        &[0, 2, 3, 4, 5, 6, 7],
        &[0, 1, 2, 4, 5, 6, 7],
        &[0, 1, 2, 3, 4, 6, 7],
        &[0, 1, 2, 3, 4, 5, 6],
        &[0, 1, 1, 2, 3, 4, 5, 6, 7],
        &[0, 1, 2, 3, 3, 4, 5, 6, 7],
        &[0, 1, 2, 3, 4, 5, 6, 7, 7],
        &[1, 0, 2, 3, 4, 5, 6, 7],
        &[0, 2, 1, 3, 4, 5, 6, 7],
        &[0, 1, 3, 2, 4, 5, 6, 7],
        &[0, 1, 2, 3, 4, 5, 7, 6],
        &[0, 3, 2, 1, 4, 5, 6, 7],
        &[0, 1, 2, 5, 4, 3, 6, 7],
        &[0, 2, 3, 4, 6],
        &[0, 2, 4, 5, 6],
        &[0, 2, 4, 6, 7],
        &[0, 2, 4, 6],
        &[0, 1, 2, 3, 4, 5, 6, 7],
    ];
    let records = (0..).zip(ground()).flat_map(|(number, macroblock)| {
        let chroma = macroblock.chroma.as_ref().expect("it is colour");
        [macroblock.record(number), chroma.record(number)]
    });
    let records: Vec<Vec<u8>> = records.collect();
    let of = |order: &&[usize]| {
        let records = order.iter().map(|&record| records[record].as_slice());
        [head(2, 2), records.collect::<Vec<_>>().concat()].concat()
    };
    ORDERS.iter().map(of).collect()
}

/// Files of one macroblock of either kind, with so many bytes of a chroma record behind its luma record, or of another one; and with a
/// chroma record that has another number, or another sum.
fn behind_one_macroblock() -> Vec<Vec<u8>> {
    let own = chroma(0).record(0);
    let marked = |mark: &[u8; 2]| mended([mark, &own[2..]].concat());
    let cut = [0, 1, 2, 3, 4, 7, 263, 264, 265].map(|length| own[..length].to_vec());
    let marks = [b"MB", b"M6", b"CM", b"MD"].map(|mark| [mark.to_vec(), marked(mark)]);
    let longer = [own.as_slice(), &[0]].concat();
    let broken = changed(&own, 264, !own[264]);
    let others = [longer, broken, chroma(0).record(1), chroma(0).record(256)];
    let behind = [cut.as_slice(), marks.as_flattened(), &others].concat();
    let luma = blanks().map(|blank| [head(1, 1), blank.record(0)].concat());
    let of = |luma: Vec<u8>| {
        let all = behind.iter().map(move |it| [luma.as_slice(), it].concat());
        all.collect::<Vec<_>>()
    };
    luma.into_iter().flat_map(of).collect()
}

/// A 2x2 file, each of whose chroma records in turn has offsets at and behind their ends, and beside a mode that is none; in one slice and
/// in two every mode and some that are none, and beside levels that are out of range; levels out of range in every place; and a luma
/// record that is refused before it or behind it.
fn contents() -> Vec<Vec<u8>> {
    let mut files = vec![];
    let mut put = |rows: usize, number: usize, change: &dyn Fn(&mut Chroma)| {
        let mut all = ground();
        change(all[number].chroma.as_mut().expect("it is colour"));
        files.push(file(rows, &all));
    };
    for number in 0..4 {
        for plane in 0..2 {
            for offset in [-128, -13, -12, 12, 13, 127] {
                put(2, number, &|chroma| chroma.offsets[plane] = offset);
            }
            put(2, number, &|chroma| {
                chroma.offsets[plane] = 13;
                chroma.mode = 4;
            });
        }
        for rows in [1, 2] {
            for mode in [0, 1, 2, 3, 4, 255] {
                put(rows, number, &|chroma| chroma.mode = mode);
                put(rows, number, &|chroma| {
                    chroma.mode = mode;
                    chroma.levels[1].ac[3][14] = i16::MIN;
                });
            }
        }
    }
    for index in 0..64 {
        for plane in 0..2 {
            put(2, index % 4, &|chroma| {
                let ChromaLevels { dc, ac } = &mut chroma.levels[plane];
                match index {
                    0..4 => dc[index] = i16::MAX,
                    _ => ac.as_flattened_mut()[index - 4] = i16::MIN,
                }
            });
        }
    }
    for (luma, number) in [(0, 0), (0, 1), (1, 0), (2, 1), (3, 3), (3, 2)] {
        let mut all = ground();
        all[luma].qp = 52;
        all[number].chroma.as_mut().expect("it is colour").mode = 4;
        files.push(file(2, &all));
    }
    files
}

/// The files that the coder makes of the drawn pictures: the bytes that it used.
fn back() -> Vec<Vec<Argument>> {
    let of = |mut request: Vec<Argument>| {
        let used = reference::calls::code_picture(&mut request).expect("it is a good request");
        let planes = request[FILE + 1..].iter().map(|plane| {
            let Bytes(plane) = plane else { unreachable!() };
            plane.clone()
        });
        let planes: Vec<Vec<u8>> = planes.collect();
        let Bytes(file) = &request[FILE] else {
            unreachable!()
        };
        let request = decoding(file[..used as usize].to_vec());
        left(reference::calls::decode_picture, &request, &planes);
        request
    };
    drawn().into_iter().map(of).collect()
}

/// Mono files of outside, of both kinds and in slices: the chroma planes keep their bytes.
fn mono() -> Vec<Vec<Argument>> {
    let names = ["random-04", "sixteen/random-02", "slices/random-06"];
    let of = |name| {
        let request = decoding(outside(name, "rec"));
        let [_, _, chroma @ ..] = request.as_slice() else {
            unreachable!()
        };
        let mut left = request.clone();
        let answer = reference::calls::decode_picture(&mut left);
        assert_eq!(answer, Ok(0), "it is mono");
        assert_eq!(left[1], Bytes(outside(name, "plane")));
        assert_eq!(&left[2..], chroma);
        request
    };
    names.map(of).to_vec()
}
