//! Planes: the files that an outside coder made and the planes that an outside
//! decoder rebuilt from them (`tests/outside`), and every refusal.

mod common;

use common::{data, form, names, refusal, wrong_mark, wrong_number, wrong_sum};
use common::{LENGTH, SIZE, UNTOUCHED};
use reference::extremes::{dc_edges, dc_levels_at};
use reference::record::{self, read_head, read_records};
use reference::record::{Fault, Head, Kind, Layout, Luma, Macroblock};
use reference::{code_plane, code_plane_by, decode_plane, Refusal};

/// The area that is lent for the file of so many macroblocks in one slice.
fn area(macroblocks: usize) -> usize {
    8 + 527 * macroblocks
}

fn sliced(width: usize, height: usize, rows: usize) -> Layout {
    Layout {
        width,
        height,
        rows,
    }
}

/// The base's: 4x4 records only.
const BASE: &str = ".";
/// Those of both kinds.
const BOTH: &str = "sixteen";
/// Those in slices, of both kinds.
const SLICES: &str = "slices";

/// What decoding gives, from two planes that differ in every bit at the start.
fn decodes(file: &[u8], samples: usize) -> Vec<u8> {
    let [one, other] = [UNTOUCHED, !UNTOUCHED].map(|start| {
        let mut plane = vec![start; samples];
        assert_eq!(decode_plane(file, &mut plane), Ok(()));
        plane
    });
    assert_eq!(one, other);
    one
}

/// Decoding gives this refusal and writes nothing.
fn refuses(expected: Refusal, file: &[u8], samples: usize) {
    let mut plane = vec![UNTOUCHED; samples];
    assert_eq!(decode_plane(file, &mut plane), Err(expected));
    assert!(plane.iter().all(|&byte| byte == UNTOUCHED));
}

#[test]
fn decodes_what_an_outside_decoder_rebuilt() {
    for (folder, count) in [(BASE, 24), (BOTH, 20), (SLICES, 16)] {
        let names = names(folder, ".rec");
        assert_eq!(names.len(), count);
        for name in names {
            let plane = data(&format!("{name}.plane"));
            let file = data(&format!("{name}.rec"));
            assert_eq!(decodes(&file, plane.len()), plane, "{name}");
        }
    }
}

/// The original with its size and QP, the outside's file and rebuilt plane.
fn originals(folder: &str) -> impl Iterator<Item = (Original, Vec<u8>, Vec<u8>)> {
    let names = names(folder, ".original");
    assert_eq!(names.len(), if folder == SLICES { 8 } else { 12 });
    names.into_iter().map(|name| {
        let file = data(&format!("{name}.rec"));
        let qp = name.rsplit('-').next().expect("the QP ends the name");
        let original = Original {
            qp: qp.parse().expect("the QP ends the name"),
            layout: read_head(&file).expect("it is a record file"),
            plane: data(&format!("{name}.original")),
        };
        (original, file, data(&format!("{name}.plane")))
    })
}

struct Original {
    qp: u8,
    layout: Layout,
    plane: Vec<u8>,
}

impl Original {
    /// The bytes used of the file's area, and the rebuilt plane. The rest of
    /// the area keeps its bytes.
    fn coded(&self, takes_sixteen: impl FnMut(&reference::Sads) -> bool) -> (Vec<u8>, Vec<u8>) {
        let Original { qp, layout, plane } = self;
        let mut file = vec![UNTOUCHED; layout.area()];
        let mut rebuilt = vec![UNTOUCHED; plane.len()];
        let outputs = (&mut file, &mut rebuilt);
        let answer = code_plane_by(takes_sixteen, *layout, *qp, plane, outputs.0, outputs.1);
        let rest = file.split_off(answer.expect("it is a picture"));
        assert!(rest.iter().all(|&byte| byte == UNTOUCHED));
        (file, rebuilt)
    }
}

/// What `code_plane` does.
const ITSELF: fn(&reference::Sads) -> bool = reference::Sads::sixteen_wins;

#[test]
fn codes_what_an_outside_coder_wrote() {
    for (original, file, plane) in originals(BOTH).chain(originals(SLICES)) {
        assert_eq!(original.coded(ITSELF), (file, plane));
    }
}

/// The base's coder knew 4x4 only.
#[test]
fn codes_4x4_as_an_outside_coder_did() {
    for (original, file, plane) in originals(BASE) {
        assert_eq!(original.coded(|_| false), (file, plane));
    }
}

/// The base's originals have a file of their own where 16x16 wins, the outside's
/// where it never does.
#[test]
fn codes_the_bases_originals_anew() {
    let mut kept = 0;
    for (original, old, _) in originals(BASE) {
        let mut won = 0;
        let (file, rebuilt) = original.coded(|sads| {
            won += usize::from(sads.sixteen_wins());
            sads.sixteen_wins()
        });
        assert_eq!(file.len(), area(12) - 7 * won);
        assert_eq!(file == old, won == 0);
        assert_eq!(decodes(&file, rebuilt.len()), rebuilt);
        kept += usize::from(won == 0);
    }
    assert!(
        (1..12).contains(&kept),
        "{kept} of 12 files are the old ones"
    );
}

/// Some plane, the same on every run.
fn some_plane(samples: usize) -> Vec<u8> {
    let mut state = 1_u32;
    let mut next = || {
        state = state.wrapping_mul(1_664_525).wrapping_add(1_013_904_223);
        (state >> 24) as u8
    };
    (0..samples).map(|_| next()).collect()
}

/// One slope over all macroblocks: 16x16 wins in many.
fn slope(width: usize, height: usize) -> Vec<u8> {
    let sample = |place: usize| {
        let (x, y) = (place % (16 * width), place / (16 * width));
        (x + 2 * y) as u8
    };
    (0..256 * width * height).map(sample).collect()
}

/// Every number of rows of each size, with both kinds of planes and some QPs.
fn every_layout(mut each: impl FnMut(&Original)) {
    for (width, height) in [(1, 1), (1, 3), (2, 2), (5, 1), (3, 4), (2, 5)] {
        for rows in 1..=height {
            let layout = sliced(width, height, rows);
            for plane in [some_plane(layout.samples()), slope(width, height)] {
                for qp in [0, 23, 51] {
                    let plane = plane.clone();
                    each(&Original { qp, layout, plane });
                }
            }
        }
    }
}

#[test]
fn the_decoder_rebuilds_what_the_coder_rebuilt() {
    let mut kinds = [0; 2];
    every_layout(|original| {
        let layout = original.layout;
        let (file, rebuilt) = original.coded(ITSELF);
        assert_eq!(read_head(&file), Ok(layout));
        assert_eq!(decodes(&file, layout.samples()), rebuilt);
        for macroblock in read_records(&file, layout.macroblocks()).expect("it is whole") {
            kinds[macroblock.kind() as usize] += 1;
        }
    });
    assert!(kinds.iter().all(|&count| count > 0), "{kinds:?}");
}

/// "The old head is one slice, and the coder writes it exactly if n is the
/// height."
#[test]
fn the_old_head_is_one_slice() {
    let mut heads = [0; 2];
    every_layout(|original| {
        let Layout { height, rows, .. } = original.layout;
        let (file, _) = original.coded(ITSELF);
        let head = Head::of(&file).expect("it is a record file");
        assert_eq!(head == Head::Old, rows == height);
        heads[head as usize] += 1;
    });
    assert!(heads.iter().all(|&count| count > 0), "{heads:?}");
    // A decoder takes the new one for one slice too.
    for (original, file, plane) in originals(BOTH) {
        let Layout { width, height, .. } = original.layout;
        let [width, height] = [width, height].map(|side| side as u16);
        let head = Head::New.written(width, height, height);
        let longer = [&head, &file[8..]].concat();
        assert_eq!(read_head(&longer), Ok(original.layout));
        assert_eq!(decodes(&longer, plane.len()), plane);
    }
}

/// A slice is coded as if its rows were a picture of their own: nothing above it
/// counts. Its records differ in their numbers alone.
#[test]
fn a_slice_stands_alone() {
    let mut shorter = 0;
    every_layout(|original| {
        let Layout { width, rows, .. } = original.layout;
        let (file, rebuilt) = original.coded(ITSELF);
        let whole = read_records(&file, original.layout.macroblocks()).expect("it is whole");
        let band = 256 * width * rows;
        let bands = original.plane.chunks(band).zip(rebuilt.chunks(band));
        for (slice, (plane, rebuilt)) in bands.enumerate() {
            let alone = Original {
                qp: original.qp,
                layout: Layout::one_slice(width, plane.len() / 256 / width),
                plane: plane.to_vec(),
            };
            shorter += usize::from(alone.layout.height < rows);
            let (file, own) = alone.coded(ITSELF);
            assert_eq!(own, rebuilt);
            let records = read_records(&file, alone.layout.macroblocks()).expect("it is whole");
            let first = slice * width * rows;
            for (number, record) in records.iter().enumerate() {
                assert_eq!(record.record(0), whole[first + number].record(0));
            }
        }
    });
    assert!(shorter > 0, "no last slice was shorter");
}

/// Both candidates of a grey macroblock cost nothing: a tie, which 4x4 wins.
#[test]
fn a_tie_is_4x4() {
    let (mut file, mut rebuilt) = (vec![0; area(1)], vec![0; 256]);
    let used = code_plane(1, 1, 1, 28, &[128; 256], &mut file, &mut rebuilt);
    assert_eq!(used, Ok(area(1)));
    assert_eq!(file[8..10], Kind::Four.mark());
}

/// The 2x2 files, of which the tests below change a byte or more: one of 4x4
/// records, one with the kinds 16x16, 16x16, 16x16, 4x4, and one of both kinds in
/// two slices.
fn two_by_twos() -> [Vec<u8>; 3] {
    let [four, both] = ["random-04.rec", "sixteen/random-04.rec"].map(data);
    let plane = slope(2, 2);
    let layout = sliced(2, 2, 1);
    let (slices, _) = Original {
        qp: 20,
        layout,
        plane,
    }
    .coded(ITSELF);
    [four, both, slices]
}

fn head_bytes(file: &[u8]) -> usize {
    Head::of(file).expect("it is a record file").bytes()
}

fn macroblocks(file: &[u8]) -> Vec<Macroblock> {
    read_records(file, 4).expect("it is whole")
}

/// The first byte of a macroblock's record; of one behind the last, the end.
fn record_place(file: &[u8], number: usize) -> usize {
    let earlier = &macroblocks(file)[..number];
    head_bytes(file) + earlier.iter().map(|it| it.kind().bytes()).sum::<usize>()
}

/// A 2x2 file with one macroblock changed and its sum right again.
fn with_changed(file: &[u8], number: usize, change: impl FnOnce(&mut Macroblock)) -> Vec<u8> {
    let mut macroblocks = macroblocks(file);
    change(&mut macroblocks[number]);
    let layout = read_head(file).expect("it is whole");
    record::file(layout, &macroblocks).expect("it is a size")
}

#[test]
fn records_are_read_as_they_are_written() {
    for file in two_by_twos() {
        assert_eq!(with_changed(&file, 0, |_| {}), file);
    }
}

/// What another value of a byte of a whole file is refused by: "11 for a wrong mark,
/// 12 for a wrong number, 13 for a wrong sum", which any other byte makes wrong. No
/// other value of a single byte leaves a sum of bytes as it was.
fn of_a_changed_byte(file: &[u8], place: usize) -> Refusal {
    let head = head_bytes(file);
    if place < head {
        return if place < 2 {
            wrong_mark(0)
        } else {
            wrong_sum(head - 2)
        };
    }
    let total = read_head(file).expect("it is whole").macroblocks();
    let macroblocks = read_records(file, total).expect("it is whole");
    let mut first = head;
    for macroblock in macroblocks {
        let end = first + macroblock.kind().bytes();
        if place < end {
            return match place - first {
                0 | 1 => wrong_mark(first),
                2 | 3 => wrong_number(first + 2),
                _ => wrong_sum(end - 2),
            };
        }
        first = end;
    }
    unreachable!("the byte is none of the file")
}

#[test]
fn a_changed_byte_is_told_by_its_field() {
    for file in two_by_twos() {
        for place in 0..file.len() {
            // None of these makes a mark another one that is known.
            for change in [2, 0x10, 0x80, 0xFF] {
                let mut changed = file.clone();
                changed[place] ^= change;
                refuses(of_a_changed_byte(&file, place), &changed, 1024);
            }
        }
    }
}

/// Every file in slices, and every single byte of it: changed, and with all from
/// there on cut off.
#[test]
fn every_byte_of_the_files_in_slices_is_told() {
    for name in names(SLICES, ".rec") {
        let file = data(&format!("{name}.rec"));
        let samples = read_head(&file).expect("it is whole").samples();
        let head = head_bytes(&file);
        for place in 0..file.len() {
            let mut changed = file.clone();
            changed[place] = !changed[place];
            refuses(of_a_changed_byte(&file, place), &changed, samples);
            let cut = if place < head { 0 } else { place };
            refuses(form(cut), &file[..place], samples);
        }
    }
}

#[test]
fn a_cut_and_a_surplus_have_the_length_as_place() {
    for file in two_by_twos() {
        for length in 0..file.len() {
            let in_head = length < head_bytes(&file);
            refuses(
                form(if in_head { 0 } else { length }),
                &file[..length],
                1024,
            );
        }
        let more = macroblocks(&file)[3].record(4);
        for surplus in [vec![0], vec![0x4D, 0x42], vec![0; 527], more] {
            let longer = [file.clone(), surplus].concat();
            refuses(form(longer.len()), &longer, 1024);
        }
    }
}

/// "Per record now cut mark, mark, cut rest, number, sum", each of which decides
/// whatever comes behind it; bytes after the last record come at the end.
#[test]
fn form_has_its_order() {
    for file in two_by_twos() {
        let broken = |file: &[u8]| read_records(file, 4).err().map(|broken| broken.fault);
        for number in 0..4 {
            let first = record_place(&file, number);
            let kind = macroblocks(&file)[number].kind();
            for left in 0..kind.bytes() {
                // Every field that is there is wrong, but for the mark in the second.
                let [any, marked] = [[0; 2], kind.mark()].map(|mark| {
                    let record = [mark.as_slice(), &[0xEE; 525]].concat();
                    [&file[..first], &record[..left]].concat()
                });
                let fault = if left < 2 {
                    Fault::CutMark
                } else {
                    Fault::Mark
                };
                assert_eq!(broken(&any), Some(fault));
                let refused = if left < 2 {
                    form(any.len())
                } else {
                    wrong_mark(first)
                };
                refuses(refused, &any, 1024);
                let fault = if left < 2 { fault } else { Fault::CutRest };
                assert_eq!(broken(&marked), Some(fault));
                refuses(form(marked.len()), &marked, 1024);
            }
            let mut changed = file.clone();
            changed[first + kind.bytes() - 1] ^= 1;
            assert_eq!(broken(&changed), Some(Fault::Sum));
            refuses(wrong_sum(first + kind.bytes() - 2), &changed, 1024);
            changed[first + 3] ^= 1;
            assert_eq!(broken(&changed), Some(Fault::Number));
            refuses(wrong_number(first + 2), &changed, 1024);
            changed[first] ^= 1;
            assert_eq!(broken(&changed), Some(Fault::Mark));
            // And none of them is behind another's record.
            changed.push(0);
            refuses(wrong_mark(first), &changed, 1024);
        }
        let longer = [file, vec![0]].concat();
        assert_eq!(broken(&longer), Some(Fault::Surplus));
    }
}

/// The other kind's mark is one that is known: the record is then of that
/// kind's length.
#[test]
fn a_mark_says_how_long_the_record_is() {
    let [four, both, _] = two_by_twos();
    let mut file = four.clone();
    let first = record_place(&file, 3);
    file[first + 1] = 0x36;
    refuses(wrong_sum(first + 518), &file, 1024);
    let mut file = both.clone();
    // The last one is 4x4: as 16x16 it would have 7 bytes behind it, if its sum
    // were right there.
    let first = record_place(&file, 3);
    file[first + 1] = 0x36;
    refuses(wrong_sum(first + 518), &file, 1024);
    let added: u16 = file[first..first + 518]
        .iter()
        .map(|&byte| u16::from(byte))
        .fold(0, u16::wrapping_add);
    file[first + 518..first + 520].copy_from_slice(&added.to_be_bytes());
    refuses(form(file.len()), &file, 1024);
    // The third is 16x16, and the file ends before it would as 4x4.
    let mut file = both[..record_place(&both, 3)].to_vec();
    let first = record_place(&both, 2);
    file[first + 1] = 0x42;
    refuses(form(file.len()), &file, 1024);
}

#[test]
fn records_have_their_order() {
    for file in two_by_twos() {
        let mut macroblocks = macroblocks(&file);
        macroblocks.swap(0, 1);
        let records: Vec<Vec<u8>> = [1, 0, 2, 3]
            .into_iter()
            .zip(&macroblocks)
            .map(|(number, macroblock)| macroblock.record(number))
            .collect();
        let (head, _) = file.split_at(head_bytes(&file));
        let place = head.len() + 2;
        refuses(
            wrong_number(place),
            &[head, &records.concat()].concat(),
            1024,
        );
    }
}

#[test]
fn a_head_asks_for_a_size() {
    for (width, height) in [(0, 1), (1, 0), (129, 1), (1, 129), (0x8000, 1), (1, 0xFFFF)] {
        for head in Head::ALL {
            let head = head.written(width, height, 1);
            assert_eq!(read_head(&head), Err(SIZE));
            refuses(SIZE, &head, 256);
        }
    }
    for (height, rows) in [(1, 0), (1, 2), (128, 129), (3, 256), (3, 65535), (0, 0)] {
        let head = Head::New.written(1, height, rows);
        assert_eq!(read_head(&head), Err(SIZE));
        refuses(SIZE, &head, 256 * usize::from(height));
    }
    // The plane's length comes before the form of the records.
    for file in two_by_twos() {
        for samples in [0, 1023, 1025] {
            refuses(LENGTH, &file, samples);
            refuses(LENGTH, &file[..100], samples);
        }
    }
}

/// "The head the same without 12": cut, of either kind and also where the other
/// kind's length is there; with a mark of neither; with another sum.
#[test]
fn a_head_has_its_form() {
    for head in [Head::Old.written(2, 3, 1), Head::New.written(2, 3, 1)] {
        for length in 0..head.len() {
            assert_eq!(read_head(&head[..length]), Err(form(0)));
        }
        assert!(read_head(&head).is_ok());
        for place in 0..head.len() {
            // No other value of a single byte leaves a sum of bytes as it was, nor is
            // the rest of a head of the other kind one of its own.
            for value in (0..=255).filter(|&value| value != head[place]) {
                let mut changed = head.clone();
                changed[place] = value;
                changed.extend([0; 4]);
                let expected = match Head::of(&changed) {
                    Some(kind) => wrong_sum(kind.bytes() - 2),
                    None => wrong_mark(0),
                };
                assert_eq!(read_head(&changed), Err(expected));
            }
        }
    }
    for mut head in [Head::Old.written(2, 3, 1), Head::New.written(2, 3, 1)] {
        // The place is the sum's, whatever stands behind it.
        let end = head.len();
        head[end - 1] ^= 1;
        head.extend([0xEE; 20]);
        assert_eq!(read_head(&head), Err(wrong_sum(end - 2)));
        // A mark that is none comes before a cut rest and before the sum.
        head[1] = b'E';
        for length in 2..head.len() {
            assert_eq!(read_head(&head[..length]), Err(wrong_mark(0)));
        }
    }
    // The sum is right for a mark that is none.
    for none in [*b"HE", *b"IS", *b"MB", [0, 0]] {
        let mut head = Head::New.written(1, 1, 1);
        head[..2].copy_from_slice(&none);
        let added: u16 = head[..8].iter().map(|&byte| u16::from(byte)).sum();
        head[8..].copy_from_slice(&added.to_be_bytes());
        assert_eq!(read_head(&head), Err(wrong_mark(0)));
    }
}

/// The head's sum comes before its size, and that before the records.
#[test]
fn a_head_has_its_order() {
    for kind in Head::ALL {
        let mut head = kind.written(0, 1, 1);
        assert_eq!(read_head(&head), Err(SIZE));
        head[kind.bytes() - 1] ^= 1;
        assert_eq!(read_head(&head), Err(wrong_sum(kind.bytes() - 2)));
    }
}

#[test]
fn content_of_4x4_has_its_order_and_its_place() {
    let [file, ..] = two_by_twos();
    let with_changed = |number, change: &dyn Fn(&mut u8, &mut record::Four)| {
        with_changed(&file, number, |macroblock| {
            let Luma::Four(four) = &mut macroblock.luma else {
                panic!("the file is of 4x4")
            };
            change(&mut macroblock.qp, four);
        })
    };
    for number in 0..4 {
        for illegal in [52, 255] {
            let file = with_changed(number, &|qp, four| {
                *qp = illegal;
                four.modes[3] = 9;
            });
            refuses(refusal(2, 16 * number), &file, 1024);
        }
        for block in 0..16 {
            let file = with_changed(number, &|_, four| {
                four.modes[block] = 9;
                four.levels[0][0] = i16::MAX;
            });
            refuses(refusal(3, 16 * number + block), &file, 1024);
            let file = with_changed(number, &|_, four| four.levels[block][15] = i16::MIN);
            refuses(refusal(6, 16 * number + block), &file, 1024);
        }
    }
    // A mode that needs what is missing: the first block of the picture has
    // no neighbours at all.
    for mode in [0, 1, 3, 4, 5, 6, 7, 8] {
        let file = with_changed(0, &|_, four| four.modes[0] = mode);
        refuses(refusal(3, 0), &file, 1024);
    }
}

/// A 2x2 file of 16x16 records that are grey throughout, with one changed.
fn grey_but(number: usize, change: impl FnOnce(&mut u8, &mut record::Sixteen)) -> Vec<u8> {
    grey_in_slices(2, number, change)
}

/// The same in slices of so many rows.
fn grey_in_slices(
    rows: usize,
    number: usize,
    change: impl FnOnce(&mut u8, &mut record::Sixteen),
) -> Vec<u8> {
    let mut grey: Vec<(u8, record::Sixteen)> = (0..4)
        .map(|_| {
            let sixteen = record::Sixteen {
                mode: 2,
                dc: [0; 16],
                ac: [[0; 15]; 16],
            };
            (28, sixteen)
        })
        .collect();
    let (qp, sixteen) = &mut grey[number];
    change(qp, sixteen);
    let macroblocks: Vec<Macroblock> = grey
        .into_iter()
        .map(|(qp, sixteen)| Macroblock {
            qp,
            luma: Luma::Sixteen(sixteen),
            chroma: None,
        })
        .collect();
    record::file(sliced(2, 2, rows), &macroblocks).expect("it is a size")
}

#[test]
fn content_of_16x16_has_its_order_and_its_place() {
    assert_eq!(decodes(&grey_but(0, |_, _| {}), 1024), [128; 1024]);
    for number in 0..4 {
        for illegal in [52, 255] {
            let file = grey_but(number, |qp, sixteen| {
                *qp = illegal;
                sixteen.mode = 4;
                sixteen.dc[0] = i16::MAX;
            });
            refuses(refusal(2, 16 * number), &file, 1024);
        }
        let (column, row) = (number % 2, number / 2);
        for mode in 0..=255 {
            let file = grey_but(number, |_, sixteen| sixteen.mode = mode);
            let permitted = match mode {
                0 => row == 1,
                1 => column == 1,
                2 => true,
                3 => row == 1 && column == 1,
                _ => false,
            };
            if permitted {
                assert_eq!(decodes(&file, 1024), [128; 1024]);
                continue;
            }
            refuses(refusal(3, 16 * number), &file, 1024);
            let worse = grey_but(number, |_, sixteen| {
                sixteen.mode = mode;
                sixteen.dc[3] = i16::MIN;
            });
            refuses(refusal(3, 16 * number), &worse, 1024);
        }
        for block in 0..16 {
            for index in 0..15 {
                let file = grey_but(number, |_, sixteen| sixteen.ac[block][index] = i16::MIN);
                refuses(refusal(6, 16 * number + block), &file, 1024);
            }
            // The DC, of whichever block, comes before the AC.
            let file = grey_but(number, |_, sixteen| {
                sixteen.ac[block] = [i16::MAX; 15];
                sixteen.dc[15] = i16::MAX;
            });
            refuses(refusal(6, 16 * number), &file, 1024);
            let file = grey_but(number, |_, sixteen| {
                sixteen.ac[block..].fill([i16::MIN; 15]);
            });
            refuses(refusal(6, 16 * number + block), &file, 1024);
        }
    }
}

/// In slices of one row nothing is above: no mode that needs it is permitted, and
/// what is left has what the first row has.
#[test]
fn modes_need_what_is_in_their_slice() {
    for number in 0..4 {
        for mode in 0..4 {
            let file = grey_in_slices(1, number, |_, sixteen| sixteen.mode = mode);
            match (mode, number % 2) {
                (1, 1) | (2, _) => assert_eq!(decodes(&file, 1024), [128; 1024]),
                _ => refuses(refusal(3, 16 * number), &file, 1024),
            }
        }
    }
    // The blocks of the upper edge lack what is above them; block 2, below, has it.
    let [_, _, slices] = two_by_twos();
    let last = record_place(&slices, 2);
    let four = Luma::Four(record::Four {
        modes: [2; 16],
        levels: [[0; 16]; 16],
    });
    for (block, mode) in [(0, 0), (1, 4), (4, 3), (5, 7)] {
        let file = with_changed(&slices, 2, |macroblock| {
            macroblock.luma = four.clone();
            let Luma::Four(four) = &mut macroblock.luma else {
                unreachable!()
            };
            four.modes[2] = 0;
            four.modes[block] = mode;
        });
        assert_eq!(file[..last], slices[..last]);
        refuses(refusal(3, 32 + block), &file, 1024);
    }
}

/// For every QP and place: the DC values next to the ends of 16 bits.
#[test]
fn dc_values_have_16_bits() {
    for legal in 0..=51 {
        for (sum, value) in dc_edges(legal).expect("it is a QP") {
            for place in 0..16 {
                let file = grey_but(3, |qp, sixteen| {
                    *qp = legal;
                    sixteen.dc = dc_levels_at(place, sum);
                });
                if i16::try_from(value).is_err() {
                    refuses(refusal(6, 48), &file, 1024);
                    continue;
                }
                // The block is black or white: 32767 is 512 after its last shift.
                let plane = decodes(&file, 1024);
                let (x, y) = (16 + 4 * (place % 4), 16 + 4 * (place / 4));
                assert_eq!(plane[32 * y + x], if value < 0 { 0 } else { 255 });
            }
        }
    }
}

/// The form of every record comes before the content of any.
#[test]
fn form_comes_before_content() {
    for file in two_by_twos() {
        let mut file = with_changed(&file, 0, |macroblock| macroblock.qp = 52);
        refuses(refusal(2, 0), &file, 1024);
        let longer = [file.clone(), vec![0]].concat();
        refuses(form(longer.len()), &longer, 1024);
        let last = record_place(&file, 3);
        file[last] ^= 1;
        refuses(wrong_mark(last), &file, 1024);
    }
}

#[test]
fn code_plane_refuses() {
    let call = |[width, height, rows]: [usize; 3], qp: u8, lengths: [usize; 3]| {
        let [plane, mut file, mut rebuilt] = lengths.map(|length| vec![UNTOUCHED; length]);
        let answer = code_plane(width, height, rows, qp, &plane, &mut file, &mut rebuilt);
        let untouched = file.iter().chain(&rebuilt).all(|&byte| byte == UNTOUCHED);
        assert!(untouched || answer.is_ok());
        answer
    };
    for size in [0, 129, usize::MAX] {
        assert_eq!(call([size, 1, 1], 52, [0, 0, 0]), Err(SIZE));
        assert_eq!(call([1, size, 1], 52, [0, 0, 0]), Err(SIZE));
        assert_eq!(call([1, size, size], 52, [0, 0, 0]), Err(SIZE));
    }
    for (height, rows) in [(2, 0), (2, 3), (2, 65535), (2, usize::MAX), (128, 129)] {
        assert_eq!(call([1, height, rows], 52, [0, 0, 0]), Err(SIZE));
    }
    // The area counts the head that this call writes.
    for (size, head) in [([2, 1, 1], 8), ([1, 2, 1], 10), ([1, 2, 2], 8)] {
        let right = [512, head + 527 * 2, 512];
        for output in 0..3 {
            // An area of just the bytes that are used is none either.
            let off = [1, 2, 7].map(|by| [right[output] - by, right[output] + by]);
            for wrong in off.concat().into_iter().chain([0]) {
                let mut lengths = right;
                lengths[output] = wrong;
                assert_eq!(call(size, 52, lengths), Err(LENGTH));
            }
        }
        for qp in 52..=255 {
            assert_eq!(call(size, qp, right), Err(refusal(2, 0)));
        }
        assert_eq!(call(size, 51, right), Ok(right[1]));
    }
}
