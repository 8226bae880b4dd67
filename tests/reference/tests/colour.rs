//! Pictures in colour: the files that an outside coder made and the planes that
//! an outside decoder rebuilt from them (`tests/outside/colour`), and every refusal
//! that a chroma record brings.

mod common;

use common::{data, form, names, refusal, wrong_mark, wrong_number, wrong_sum};
use common::{LENGTH, SIZE, UNTOUCHED};
use reference::record::{self, read_head, read_records};
use reference::record::{Chroma, ChromaLevels, Fault, Head, Kind, Layout, Luma, Macroblock};
use reference::{code_picture, code_picture_by, code_plane, decode_picture, decode_plane};
use reference::{ChromaSads, Picture, Refusal, Sads};

const COLOUR: &str = "colour";

/// Luma, Cb and Cr.
type Planes = [Vec<u8>; 3];

fn planes_of(layout: Layout, byte: u8) -> Planes {
    let chroma = layout.chroma_samples();
    [layout.samples(), chroma, chroma].map(|length| vec![byte; length])
}

/// Three planes that stand one behind the other.
fn parted(layout: Layout, all: &[u8]) -> Planes {
    let (luma, chroma) = all.split_at(layout.samples());
    let (cb, cr) = chroma.split_at(layout.chroma_samples());
    [luma, cb, cr].map(<[u8]>::to_vec)
}

/// Decodes into these planes.
fn decode(file: &[u8], [luma, cb, cr]: &mut Planes) -> Result<bool, Refusal> {
    decode_picture(file, luma, cb, cr)
}

/// What decoding gives, from planes that differ in every bit at the start: the same
/// for both, and of luma what `decode_plane` gives.
fn decodes(file: &[u8]) -> Planes {
    let layout = read_head(file).expect("it is a record file");
    let [one, other] = [UNTOUCHED, !UNTOUCHED].map(|start| {
        let mut planes = planes_of(layout, start);
        assert_eq!(decode(file, &mut planes), Ok(true));
        let mut luma = vec![start; layout.samples()];
        assert_eq!(decode_plane(file, &mut luma), Ok(()));
        assert_eq!(planes[0], luma);
        planes
    });
    assert_eq!(one, other);
    one
}

/// Both decoders give this refusal and write nothing.
fn refuses(expected: Refusal, file: &[u8], layout: Layout) {
    let mut planes = planes_of(layout, UNTOUCHED);
    assert_eq!(decode(file, &mut planes), Err(expected));
    assert_eq!(decode_plane(file, &mut planes[0]), Err(expected));
    assert!(planes == planes_of(layout, UNTOUCHED));
}

#[test]
fn decodes_what_an_outside_decoder_rebuilt() {
    let names = names(COLOUR, ".rec");
    assert_eq!(names.len(), 17);
    let mut modes = [0; 4];
    for name in names {
        let file = data(&format!("{name}.rec"));
        let layout = read_head(&file).expect("it is a record file");
        let planes = parted(layout, &data(&format!("{name}.plane")));
        assert!(decodes(&file) == planes, "{name}");
        for macroblock in read_records(&file, layout.macroblocks()).expect("it is whole") {
            let chroma = macroblock.chroma.expect("the file is colour");
            modes[usize::from(chroma.mode)] += 1;
        }
    }
    assert!(modes.iter().all(|&count| count > 0), "{modes:?}");
}

struct Original {
    layout: Layout,
    qp: u8,
    offsets: [i32; 2],
    planes: Planes,
}

impl Original {
    fn lent(&self) -> Picture<'_> {
        Picture {
            layout: self.layout,
            qp: self.qp,
            offsets: self.offsets,
            planes: self.planes.each_ref().map(Vec::as_slice),
        }
    }

    fn coded(&self, chroma_mode: impl FnMut(&ChromaSads) -> u8) -> (Vec<u8>, Planes) {
        self.coded_by(Sads::sixteen_wins, chroma_mode)
    }

    /// The bytes used of the file's area, and the rebuilt planes. The rest of the
    /// area keeps its bytes.
    fn coded_by(
        &self,
        takes_sixteen: impl FnMut(&Sads) -> bool,
        chroma_mode: impl FnMut(&ChromaSads) -> u8,
    ) -> (Vec<u8>, Planes) {
        let mut file = vec![UNTOUCHED; self.layout.colour_area()];
        let mut rebuilt = planes_of(self.layout, UNTOUCHED);
        let outputs = rebuilt.each_mut().map(Vec::as_mut_slice);
        let picture = self.lent();
        let used = code_picture_by(takes_sixteen, chroma_mode, &picture, &mut file, outputs);
        let rest = file.split_off(used.expect("it is a picture"));
        assert!(rest.iter().all(|&byte| byte == UNTOUCHED));
        (file, rebuilt)
    }
}

/// The offsets are those of the chroma records, the same in all.
#[test]
fn codes_what_an_outside_coder_wrote() {
    let names = names(COLOUR, ".original");
    assert_eq!(names.len(), 9);
    let mut apart = 0;
    for name in names {
        let file = data(&format!("{name}.rec"));
        let layout = read_head(&file).expect("it is a record file");
        let macroblocks = read_records(&file, layout.macroblocks()).expect("it is whole");
        let offsets = |it: &Macroblock| it.chroma.as_ref().map(|chroma| chroma.offsets);
        let own = offsets(&macroblocks[0]);
        assert!(macroblocks.iter().all(|it| offsets(it) == own));
        let own = own.expect("the file is colour");
        apart += usize::from(own[0] != own[1]);
        let qp = name.rsplit('-').next().and_then(|qp| qp.parse().ok());
        let original = Original {
            layout,
            qp: qp.expect("the QP ends the name"),
            offsets: own.map(i32::from),
            planes: parted(layout, &data(&format!("{name}.original"))),
        };
        let rebuilt = parted(layout, &data(&format!("{name}.plane")));
        assert!(
            original.coded(ChromaSads::best) == (file, rebuilt),
            "{name}"
        );
    }
    assert!(apart > 0, "no file has two offsets");
}

/// Some bytes, the same on every run.
fn noise(seed: u32) -> impl FnMut() -> u8 {
    let mut state = seed;
    move || {
        state = state.wrapping_mul(1_664_525).wrapping_add(1_013_904_223);
        (state >> 24) as u8
    }
}

fn noisy(length: usize, seed: u32) -> Vec<u8> {
    let mut next = noise(seed);
    (0..length).map(|_| next()).collect()
}

/// A slope, over all macroblocks of a plane.
fn slope(layout: Layout, side: usize, right: usize, down: usize) -> Vec<u8> {
    let stride = side * layout.width;
    let sample = |place: usize| (place % stride * right + place / stride * down) as u8;
    (0..side * stride * layout.height).map(sample).collect()
}

fn sliced(width: usize, height: usize, rows: usize) -> Layout {
    Layout {
        width,
        height,
        rows,
    }
}

/// Every number of rows of each size, with noise and with slopes, and offsets up to
/// their ends.
fn every_layout(mut each: impl FnMut(&Original)) {
    let mut seed = 0;
    for (width, height) in [(1, 1), (1, 3), (2, 2), (4, 1), (3, 3)] {
        for rows in 1..=height {
            let layout = sliced(width, height, rows);
            for (qp, offsets) in [(0, [-12, 12]), (23, [0, 5]), (40, [12, -7]), (51, [-1, 0])] {
                seed += 1;
                let chroma = layout.chroma_samples();
                let any = [layout.samples(), chroma, chroma].map(|length| noisy(length, seed));
                let even = [
                    slope(layout, 16, 1, 2),
                    slope(layout, 8, 3, 0),
                    slope(layout, 8, 2, 5),
                ];
                for planes in [any, even] {
                    each(&Original {
                        layout,
                        qp,
                        offsets,
                        planes,
                    });
                }
            }
        }
    }
}

#[test]
fn the_decoder_rebuilds_what_the_coder_rebuilt() {
    let mut modes = [0; 4];
    every_layout(|original| {
        let (file, rebuilt) = original.coded(|sads| {
            modes[usize::from(sads.best())] += 1;
            sads.best()
        });
        assert!(decodes(&file) == rebuilt);
    });
    assert!(modes.iter().all(|&count| count > 0), "{modes:?}");
}

/// Every mode that is permitted can be coded, not the best one alone.
#[test]
fn every_permitted_mode_is_decoded_as_it_was_coded() {
    for wanted in 0..4 {
        let mut taken = 0;
        every_layout(|original| {
            let (file, rebuilt) = original.coded(|sads| {
                let permitted = sads.summed()[wanted].is_some();
                taken += usize::from(permitted);
                if permitted {
                    wanted as u8
                } else {
                    0
                }
            });
            assert!(decodes(&file) == rebuilt);
        });
        assert!(taken > 0);
    }
}

/// Luma of a colour picture is coded as `code_plane` codes it: the same records,
/// with a chroma record behind each.
#[test]
fn luma_is_as_it_was() {
    every_layout(|original| {
        let layout = original.layout;
        let (file, [luma, ..]) = original.coded(ChromaSads::best);
        let (mut area, mut plane) = (vec![0; layout.area()], vec![0; layout.samples()]);
        let Layout {
            width,
            height,
            rows,
        } = layout;
        let (qp, [original, ..]) = (original.qp, &original.planes);
        let used = code_plane(width, height, rows, qp, original, &mut area, &mut plane);
        let mono = &area[..used.expect("it is a picture")];
        assert_eq!(luma, plane);
        let mut macroblocks = read_records(&file, layout.macroblocks()).expect("it is whole");
        let chroma = 265 * macroblocks.len();
        assert_eq!(file.len(), mono.len() + chroma);
        macroblocks.iter_mut().for_each(|it| it.chroma = None);
        assert_eq!(record::file(layout, &macroblocks).as_deref(), Ok(mono));
        // The mono file is decoded too, and the chroma planes keep their bytes.
        let mut planes = planes_of(layout, UNTOUCHED);
        assert_eq!(decode(mono, &mut planes), Ok(false));
        let [_, cb, cr] = planes_of(layout, UNTOUCHED);
        assert!(planes == [luma, cb, cr]);
    });
}

/// A slice is coded as if its rows were a picture of their own, in all three planes.
#[test]
fn a_slice_stands_alone() {
    every_layout(|original| {
        let Layout { width, rows, .. } = original.layout;
        let (file, rebuilt) = original.coded(ChromaSads::best);
        let whole = read_records(&file, original.layout.macroblocks()).expect("it is whole");
        let band = |planes: &Planes, slice: usize| -> Planes {
            std::array::from_fn(|plane| {
                let samples = width * rows * [256, 64, 64][plane];
                let bands: Vec<&[u8]> = planes[plane].chunks(samples).collect();
                bands[slice].to_vec()
            })
        };
        for slice in 0..original.layout.height.div_ceil(rows) {
            let planes = band(&original.planes, slice);
            let alone = Original {
                layout: Layout::one_slice(width, planes[1].len() / 64 / width),
                planes,
                ..*original
            };
            let (file, own) = alone.coded(ChromaSads::best);
            assert!(own == band(&rebuilt, slice));
            let records = read_records(&file, alone.layout.macroblocks()).expect("it is whole");
            for (number, macroblock) in records.iter().enumerate() {
                let other = &whole[slice * width * rows + number];
                assert_eq!(macroblock.records(0), other.records(0));
            }
        }
    });
}

// ---- refusals

/// A 2x2 colour file with the luma kinds 16x16, 4x4, 4x4, 16x16, in one slice and in
/// two.
fn two_by_twos() -> [Vec<u8>; 2] {
    [2, 1].map(|rows| {
        let layout = sliced(2, 2, rows);
        let original = Original {
            layout,
            qp: 20,
            offsets: [-3, 4],
            planes: [
                slope(layout, 16, 1, 2),
                slope(layout, 8, 3, 1),
                noisy(256, 7),
            ],
        };
        let mut turn = 0;
        let takes_sixteen = |_: &Sads| {
            turn += 1;
            turn % 3 == 1
        };
        let (file, _) = original.coded_by(takes_sixteen, ChromaSads::best);
        file
    })
}

/// The records of a file: their first bytes, their kinds and the macroblock's number.
fn fields(file: &[u8]) -> Vec<(usize, Kind, usize)> {
    let layout = read_head(file).expect("it is whole");
    let mut at = Head::of(file).expect("it is whole").bytes();
    let mut fields = vec![];
    for (number, macroblock) in read_records(file, layout.macroblocks())
        .expect("it is whole")
        .iter()
        .enumerate()
    {
        let chroma = macroblock.chroma.as_ref().map(|_| Kind::Chroma);
        for kind in [macroblock.kind()].into_iter().chain(chroma) {
            fields.push((at, kind, number));
            at += kind.bytes();
        }
    }
    assert_eq!(at, file.len());
    fields
}

/// What another value of a byte behind the head is refused by.
fn of_a_changed_byte(file: &[u8], place: usize) -> Refusal {
    let fields = fields(file);
    let holds = |(first, kind, _): &&(usize, Kind, usize)| place < first + kind.bytes();
    let &(first, kind, _) = fields.iter().find(holds).expect("it is in the file");
    match place - first {
        0 | 1 => wrong_mark(first),
        2 | 3 => wrong_number(first + 2),
        _ => wrong_sum(first + kind.bytes() - 2),
    }
}

/// The first macroblock's chroma mark apart: another mark there makes the file mono,
/// and the record is one too many.
#[test]
fn a_changed_byte_is_told_by_its_field() {
    let outside = ["random-04", "random-07"].map(|name| data(&format!("{COLOUR}/{name}.rec")));
    for file in two_by_twos().into_iter().chain(outside) {
        let layout = read_head(&file).expect("it is whole");
        let head = Head::of(&file).expect("it is whole").bytes();
        for place in head..file.len() {
            let mut changed = file.clone();
            changed[place] = !changed[place];
            refuses(of_a_changed_byte(&file, place), &changed, layout);
        }
    }
}

#[test]
fn a_cut_and_a_surplus_have_the_length_as_place() {
    for file in two_by_twos() {
        let layout = read_head(&file).expect("it is whole");
        let head = Head::of(&file).expect("it is whole").bytes();
        let first = fields(&file)[1].0;
        for length in head..file.len() {
            // Before the first chroma mark the file is mono, and the next luma record is
            // missing all the same.
            refuses(form(length), &file[..length], layout);
        }
        let (_, _, last) = fields(&file)[7];
        let chroma = read_records(&file, 4).expect("it is whole")[last]
            .chroma
            .clone()
            .expect("the file is colour");
        let luma = file[head..first].to_vec();
        for surplus in [
            vec![0],
            b"M".to_vec(),
            b"MC".to_vec(),
            chroma.record(3),
            chroma.record(4),
            luma,
        ] {
            let longer = [file.clone(), surplus].concat();
            refuses(form(longer.len()), &longer, layout);
        }
    }
}

/// "For a picture of one macroblock, what follows its luma record decides: a chroma
/// mark makes it colour, anything else is surplus, as is a single byte."
#[test]
fn what_follows_the_only_luma_record_decides() {
    let layout = Layout::one_slice(1, 1);
    for kind in Kind::LUMA {
        let mono = record::file(layout, &[grey(kind)]).expect("it is a size");
        let mut planes = planes_of(layout, UNTOUCHED);
        assert_eq!(decode(&mono, &mut planes), Ok(false));
        let grey_luma = vec![128; 256];
        assert!(planes == [grey_luma, vec![UNTOUCHED; 64], vec![UNTOUCHED; 64]]);
        let chroma = grey_chroma().record(0);
        for length in 1..chroma.len() {
            let longer = [&mono, &chroma[..length]].concat();
            refuses(form(longer.len()), &longer, layout);
        }
        let colour = [mono.as_slice(), &chroma].concat();
        assert!(decodes(&colour) == planes_of(layout, 128));
        let longer = [colour.as_slice(), &[0]].concat();
        refuses(form(longer.len()), &longer, layout);
        // No other mark, nor another record, belongs there.
        for mark in [Kind::Four, Kind::Sixteen]
            .map(Kind::mark)
            .into_iter()
            .chain([*b"MD", *b"NC"])
        {
            let other = [mono.as_slice(), &mark, &chroma[2..]].concat();
            refuses(form(other.len()), &other, layout);
        }
        // Of the chroma record mark, number and sum have their places.
        let first = mono.len();
        let mut broken = colour.clone();
        broken[first + 264] ^= 1;
        refuses(wrong_sum(first + 263), &broken, layout);
        broken[first + 3] ^= 1;
        refuses(wrong_number(first + 2), &broken, layout);
    }
}

/// The same where more follow: a luma record that is given the chroma mark is read as
/// the first macroblock's chroma, which has another number, and that length.
#[test]
fn a_chroma_mark_behind_the_first_luma_record_is_colour() {
    let layout = Layout::one_slice(2, 1);
    let records = [0, 1]
        .map(|number| grey(Kind::Four).record(number))
        .concat();
    let mut file = [Head::Old.written(2, 1, 1), records].concat();
    file[8 + 527 + 1] = 0x43;
    refuses(wrong_number(8 + 527 + 2), &file, layout);
    file[8 + 527 + 3] = 0;
    refuses(wrong_sum(8 + 527 + 263), &file, layout);
}

fn grey(kind: Kind) -> Macroblock {
    let luma = match kind {
        Kind::Sixteen => Luma::Sixteen(record::Sixteen {
            mode: 2,
            dc: [0; 16],
            ac: [[0; 15]; 16],
        }),
        _ => Luma::Four(record::Four {
            modes: [2; 16],
            levels: [[0; 16]; 16],
        }),
    };
    Macroblock {
        qp: 28,
        luma,
        chroma: None,
    }
}

fn grey_chroma() -> Chroma {
    let flat = ChromaLevels {
        dc: [0; 4],
        ac: [[0; 15]; 4],
    };
    Chroma {
        offsets: [0; 2],
        mode: 0,
        levels: [flat.clone(), flat],
    }
}

/// "11 where the record is missing or not expected", and in its order.
#[test]
fn a_chroma_record_stands_where_it_should() {
    for file in two_by_twos() {
        let layout = read_head(&file).expect("it is whole");
        let fields = fields(&file);
        let record = |field: usize| {
            let (first, kind, _) = fields[field];
            file[first..first + kind.bytes()].to_vec()
        };
        let head = file[..fields[0].0].to_vec();
        let built = |order: &[usize]| {
            let records = order.iter().map(|&field| record(field));
            [head.clone(), records.collect::<Vec<_>>().concat()].concat()
        };
        let first = |order: &[usize], place: usize| built(&order[..place]).len();
        // Luma m is record 2m, and its chroma 2m + 1.
        let told = |order: &[usize], expected: &dyn Fn(usize) -> Refusal, place: usize| {
            refuses(expected(first(order, place)), &built(order), layout);
        };
        let mark = |place| wrong_mark(place);
        let number = |place: usize| wrong_number(place + 2);
        // Left out: the first makes a mono file, in which the next is not expected.
        told(&[0, 2, 3, 4, 5, 6, 7], &mark, 2);
        told(&[0, 1, 2, 4, 5, 6, 7], &mark, 3);
        told(&[0, 1, 2, 3, 4, 6, 7], &mark, 5);
        // The last one left out is a cut.
        let cut = built(&[0, 1, 2, 3, 4, 5, 6]);
        refuses(form(cut.len()), &cut, layout);
        // Doubled: a luma record is expected.
        told(&[0, 1, 1, 2, 3, 4, 5, 6, 7], &mark, 2);
        told(&[0, 1, 2, 3, 3, 4, 5, 6, 7], &mark, 4);
        let surplus = built(&[0, 1, 2, 3, 4, 5, 6, 7, 7]);
        refuses(form(surplus.len()), &surplus, layout);
        // Moved: before its luma record, behind the next, exchanged with another.
        told(&[1, 0, 2, 3, 4, 5, 6, 7], &mark, 0);
        told(&[0, 2, 1, 3, 4, 5, 6, 7], &mark, 2);
        told(&[0, 1, 3, 2, 4, 5, 6, 7], &mark, 2);
        told(&[0, 3, 2, 1, 4, 5, 6, 7], &number, 1);
        told(&[0, 1, 2, 5, 4, 3, 6, 7], &number, 3);
        told(&[0, 1, 2, 3, 4, 5, 7, 6], &mark, 6);
        // In a mono file, at every place; at the last one it is surplus.
        told(&[0, 2, 3, 4, 6], &mark, 2);
        told(&[0, 2, 4, 5, 6], &mark, 3);
        let surplus = built(&[0, 2, 4, 6, 7]);
        refuses(form(surplus.len()), &surplus, layout);
        let mut planes = planes_of(layout, UNTOUCHED);
        assert_eq!(decode(&built(&[0, 2, 4, 6]), &mut planes), Ok(false));
    }
}

/// "Cut mark, mark, cut rest, number, sum", each of which decides whatever comes
/// behind it, at every chroma record.
#[test]
fn form_has_its_order() {
    for file in two_by_twos() {
        let layout = read_head(&file).expect("it is whole");
        let broken = |file: &[u8]| read_records(file, 4).err().map(|broken| broken.fault);
        for (first, kind, number) in fields(&file) {
            if kind != Kind::Chroma || number == 0 {
                continue;
            }
            for left in 0..kind.bytes() {
                let record = [kind.mark().as_slice(), &[0xEE; 263]].concat();
                let cut = [&file[..first], &record[..left]].concat();
                let fault = [Fault::CutMark, Fault::CutRest][usize::from(left > 1)];
                assert_eq!(broken(&cut), Some(fault));
                refuses(form(cut.len()), &cut, layout);
                // A luma record is none of those that may stand here.
                let other = [&file[..first], &Kind::Four.mark(), &record[2..]].concat();
                refuses(wrong_mark(first), &other[..first + left.max(2)], layout);
            }
            let mut changed = file.clone();
            changed[first + 264] ^= 1;
            refuses(wrong_sum(first + 263), &changed, layout);
            changed[first + 3] ^= 1;
            refuses(wrong_number(first + 2), &changed, layout);
            changed[first + 1] = 0x36;
            refuses(wrong_mark(first), &changed, layout);
        }
    }
}

/// A 2x2 file that is grey throughout, with the chroma of one macroblock changed; and
/// that chroma record's first byte.
fn grey_but(rows: usize, number: usize, change: impl FnOnce(&mut Chroma)) -> (Vec<u8>, usize) {
    let mut macroblocks: Vec<Macroblock> = [Kind::Four, Kind::Sixteen, Kind::Sixteen, Kind::Four]
        .map(|kind| Macroblock {
            chroma: Some(grey_chroma()),
            ..grey(kind)
        })
        .to_vec();
    change(macroblocks[number].chroma.as_mut().expect("it has one"));
    let file = record::file(sliced(2, 2, rows), &macroblocks).expect("it is a size");
    let (first, ..) = fields(&file)[2 * number + 1];
    (file, first)
}

#[test]
fn offsets_are_tested_first() {
    let layout = Layout::one_slice(2, 2);
    for number in 0..4 {
        for offset in i8::MIN..=i8::MAX {
            for plane in 0..2 {
                let legal = (-12..=12).contains(&offset);
                let (file, first) = grey_but(2, number, |chroma| {
                    chroma.offsets[plane] = offset;
                    if !legal {
                        chroma.mode = 4;
                        chroma.levels[0].dc[0] = i16::MAX;
                    }
                });
                match legal {
                    true => assert!(decodes(&file) == planes_of(layout, 128)),
                    false => refuses(refusal(2, first), &file, layout),
                }
            }
        }
    }
}

#[test]
fn modes_need_what_they_need() {
    for rows in [1, 2] {
        let layout = sliced(2, 2, rows);
        for number in 0..4 {
            let left = number % 2 == 1;
            let above = number / 2 == 1 && rows == 2;
            for mode in 0..=255 {
                let (file, first) = grey_but(rows, number, |chroma| chroma.mode = mode);
                let permitted = match mode {
                    0 => true,
                    1 => left,
                    2 => above,
                    3 => left && above,
                    _ => false,
                };
                if permitted {
                    assert!(decodes(&file) == planes_of(layout, 128));
                    continue;
                }
                refuses(refusal(3, first), &file, layout);
                let (worse, first) = grey_but(rows, number, |chroma| {
                    chroma.mode = mode;
                    chroma.levels[0].dc[0] = i16::MAX;
                    chroma.levels[1].ac[3][14] = i16::MIN;
                });
                refuses(refusal(3, first), &worse, layout);
            }
        }
    }
}

#[test]
fn levels_have_their_range() {
    let layout = Layout::one_slice(2, 2);
    for number in 0..4 {
        for plane in 0..2 {
            for index in 0..4 {
                let (file, first) = grey_but(2, number, |chroma| {
                    chroma.levels[plane].dc[index] = i16::MIN;
                });
                refuses(refusal(6, first), &file, layout);
            }
            for index in 0..60 {
                let (file, first) = grey_but(2, number, |chroma| {
                    chroma.levels[plane].ac.as_flattened_mut()[index] = i16::MAX;
                });
                refuses(refusal(6, first), &file, layout);
            }
        }
    }
}

/// Each plane has the quantizer of its own offset: a DC level that is in range at
/// QP 0 only. Value 6554 * 10 / 2 is 32770, and at QP 1 more.
#[test]
fn each_plane_has_its_own_offset() {
    let layout = Layout::one_slice(1, 1);
    for plane in 0..2 {
        for (offset, level, legal) in [(-12, 6553, true), (-12, 6554, false), (-11, 6553, false)] {
            let mut chroma = grey_chroma();
            chroma.offsets[plane] = offset;
            chroma.levels[plane].dc[0] = level;
            let only = Macroblock {
                qp: 12,
                chroma: Some(chroma),
                ..grey(Kind::Four)
            };
            let file = record::file(layout, &[only]).expect("it is a size");
            if legal {
                let mut expected = planes_of(layout, 128);
                expected[1 + plane].fill(255);
                assert!(decodes(&file) == expected);
            } else {
                refuses(refusal(6, 8 + 527), &file, layout);
            }
        }
    }
}

/// "Content order is the order of the records: luma m, chroma m, luma m + 1", behind
/// the form of all of them.
#[test]
fn content_has_the_order_of_the_records() {
    let layout = Layout::one_slice(2, 2);
    let bad = |luma: &[usize], chroma: &[usize]| {
        let macroblock = |number: usize| {
            let mut own = grey_chroma();
            own.mode = if chroma.contains(&number) { 4 } else { 0 };
            Macroblock {
                qp: if luma.contains(&number) { 52 } else { 28 },
                chroma: Some(own),
                ..grey(Kind::Sixteen)
            }
        };
        let all = [0, 1, 2, 3].map(macroblock);
        record::file(layout, &all).expect("it is a size")
    };
    let place = |number: usize| 8 + 785 * number + 520;
    refuses(refusal(2, 0), &bad(&[0], &[0]), layout);
    refuses(refusal(3, place(0)), &bad(&[1], &[0]), layout);
    refuses(refusal(2, 16), &bad(&[1], &[1, 2]), layout);
    refuses(refusal(3, place(1)), &bad(&[2], &[1]), layout);
    refuses(refusal(3, place(3)), &bad(&[], &[3]), layout);
    // The QP that is none is luma's, also where an offset is none either.
    let mut broken = bad(&[0], &[0]);
    broken.push(0);
    refuses(form(broken.len()), &broken, layout);
    let mut broken = bad(&[0], &[0]);
    let last = broken.len() - 1;
    broken[last] ^= 1;
    refuses(wrong_sum(last - 1), &broken, layout);
}

/// The planes' lengths come behind the head and before the records, of a mono file
/// too; `decode_plane` has but one plane.
#[test]
fn lengths_are_tested_behind_the_head() {
    let [colour, _] = two_by_twos();
    let mono = [Head::Old.written(2, 2, 2), grey_records()].concat();
    for file in [colour.as_slice(), &mono, &colour[..100], &mono[..8]] {
        let right = [1024, 256, 256];
        for plane in 0..3 {
            for wrong in [0, right[plane] - 1, right[plane] + 1, 4 * right[plane]] {
                let mut lengths = right;
                lengths[plane] = wrong;
                let [mut luma, mut cb, mut cr] = lengths.map(|length| vec![UNTOUCHED; length]);
                assert_eq!(
                    decode_picture(file, &mut luma, &mut cb, &mut cr),
                    Err(LENGTH)
                );
                let untouched = [luma, cb, cr]
                    .concat()
                    .iter()
                    .all(|&byte| byte == UNTOUCHED);
                assert!(untouched);
            }
        }
    }
    let size = Head::Old.written(0, 1, 1);
    assert_eq!(decode_picture(&size, &mut [], &mut [], &mut []), Err(SIZE));
    assert_eq!(
        decode_picture(&size[..7], &mut [], &mut [], &mut []),
        Err(form(0))
    );
}

fn grey_records() -> Vec<u8> {
    let records = (0..4).map(|number| grey(Kind::Four).record(number));
    records.collect::<Vec<_>>().concat()
}

#[test]
fn code_picture_refuses() {
    let call =
        |[width, height, rows]: [usize; 3], qp: u8, offsets: [i32; 2], lengths: [usize; 7]| {
            let [luma, cb, cr, mut file, mut luma_out, mut cb_out, mut cr_out] =
                lengths.map(|length| vec![UNTOUCHED; length]);
            let answer = code_picture(
                width,
                height,
                rows,
                qp,
                offsets[0],
                offsets[1],
                &luma,
                &cb,
                &cr,
                &mut file,
                &mut luma_out,
                &mut cb_out,
                &mut cr_out,
            );
            let outputs = [file, luma_out, cb_out, cr_out].concat();
            assert!(answer.is_ok() || outputs.iter().all(|&byte| byte == UNTOUCHED));
            answer
        };
    const BAD: [i32; 6] = [-13, 13, -128, 127, i32::MIN, i32::MAX];
    for size in [0, 129, usize::MAX] {
        assert_eq!(call([size, 1, 1], 52, [13; 2], [0; 7]), Err(SIZE));
        assert_eq!(call([1, size, 1], 52, [13; 2], [0; 7]), Err(SIZE));
        assert_eq!(call([1, size, size], 52, [13; 2], [0; 7]), Err(SIZE));
    }
    for rows in [0, 3, 65535, usize::MAX] {
        assert_eq!(call([1, 2, rows], 52, [13; 2], [0; 7]), Err(SIZE));
    }
    // The area counts the head that this call writes.
    for (size, head) in [([2, 1, 1], 8), ([1, 2, 1], 10), ([1, 2, 2], 8)] {
        let right = [512, 128, 128, head + (527 + 265) * 2, 512, 128, 128];
        for slice in 0..7 {
            let off = [1, 2, 7].map(|by| [right[slice] - by, right[slice] + by]);
            for wrong in off.concat().into_iter().chain([0]) {
                let mut lengths = right;
                lengths[slice] = wrong;
                assert_eq!(call(size, 52, [13; 2], lengths), Err(LENGTH));
            }
        }
        for qp in 52..=255 {
            assert_eq!(call(size, qp, [0; 2], right), Err(refusal(2, 0)));
        }
        for bad in BAD {
            assert_eq!(call(size, 51, [bad, 0], right), Err(refusal(2, 0)));
            assert_eq!(call(size, 51, [0, bad], right), Err(refusal(2, 0)));
        }
        for good in [-12, 12] {
            assert_eq!(call(size, 51, [good, -good], right), Ok(right[3]));
        }
    }
}
