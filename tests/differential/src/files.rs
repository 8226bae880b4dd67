//! Arguments of the functions on record files: whole files of both kinds of heads and of all kinds of records, mono and colour, and files
//! damaged in every field, with the sum mended or not.

use crate::colour;
use crate::named::{named, Told};
use crate::pictures::{self, OFFSETS};
use crate::planes::{held, LARGEST};
use crate::random::Random;
use crate::request::Argument::{self, Bytes};
use crate::sizes;
use reference::extremes::{dc_edges, dc_levels_at};
use reference::record::{
    self, Chroma, ChromaLevels, Four, Head, Kind, Layout, Luma, Macroblock, Sixteen,
};
use reference::Refusal;
use std::sync::OnceLock;

/// The listed heads first, and then drawn ones.
pub fn read_head(random: &mut Random, case: usize) -> Vec<Argument> {
    static LISTED: OnceLock<Vec<Vec<u8>>> = OnceLock::new();
    let file = match LISTED.get_or_init(listed_heads).get(case) {
        Some(file) => file.clone(),
        None => drawn_head(random),
    };
    vec![Bytes(file)]
}

fn drawn_head(random: &mut Random) -> Vec<u8> {
    let mut side = || match random.below(8) {
        0 => random.of(&[0, 1, 128, 129, 256, 65535]),
        1 => random.next() as u16,
        _ => random.between(1, 128) as u16,
    };
    let (width, height, any) = (side(), side(), side());
    let rows = match random.below(4) {
        0 => any,
        1 => random.of(&[0, 1, height, height.wrapping_add(1), 65535]),
        _ => random.between(1, i32::from(height.max(1))) as u16,
    };
    let mut file = random.of(&Head::ALL).written(width, height, rows);
    let length = file.len();
    if random.once_in(4) {
        let place = random.below(length);
        file[place] ^= 1 << random.below(8);
        if random.once_in(2) {
            mend(&mut file);
        }
    }
    match random.below(8) {
        0 => file.truncate(random.below(length)),
        1 => file.extend((0..random.below(20)).map(|_| random.byte())),
        _ => {}
    }
    file
}

/// Of both kinds: cut at every byte; with every byte of every other value, and the same with the sum mended; with the other kind's mark.
/// Rows in and out of range at every height; the new mark before a head that is as long as the old one or one longer, with its sum.
fn listed_heads() -> Vec<Vec<u8>> {
    let mut heads = vec![];
    for (kind, other) in [(Head::Old, Head::New), (Head::New, Head::Old)] {
        let good = listed_head(kind);
        heads.extend((0..good.len()).map(|length| good[..length].to_vec()));
        for place in 0..good.len() {
            let values = (0..=255).filter(|&value| value != good[place]);
            heads.extend(with_sums(values.map(|value| changed(&good, place, value))));
        }
        let marked = [&other.mark(), &good[2..]].concat();
        heads.extend(with_sums([marked.clone(), [marked, vec![0, 0]].concat()]));
    }
    for height in 0..=129 {
        let rows = [0, 1, height / 2, height, height + 1, 255, 256, 32768, 65535];
        heads.extend(rows.map(|rows| Head::New.written(1, height, rows)));
    }
    for numbers in [4, 5] {
        heads.extend(with_sums([
            [&Head::New.mark(), &[1; 7][..numbers + 2]].concat()
        ]));
    }
    heads
}

/// The heads that are changed at every byte.
pub fn listed_head(kind: Head) -> Vec<u8> {
    kind.written(2, 2, 1)
}

/// Records, and the same with their sums mended.
fn with_sums(records: impl IntoIterator<Item = Vec<u8>>) -> Vec<Vec<u8>> {
    let pair = |record: Vec<u8>| {
        let mut mended = record.clone();
        mend(&mut mended);
        [record, mended]
    };
    records.into_iter().flat_map(pair).collect()
}

fn changed(file: &[u8], place: usize, value: u8) -> Vec<u8> {
    let mut file = file.to_vec();
    file[place] = value;
    file
}

/// The listed files first, then small ones, mostly damaged, and some of the largest last, one of which is refused; planes that hold
/// anything.
pub const CASES: usize = 200_000;

pub fn decode_plane(random: &mut Random, case: usize) -> Vec<Argument> {
    let Chosen { file, lengths } = chosen(random, case, 1);
    let plane = held(random, lengths[0]);
    vec![Bytes(file), Bytes(plane)]
}

pub fn decode_picture(random: &mut Random, case: usize) -> Vec<Argument> {
    let Chosen { file, lengths } = chosen(random, case, 3);
    let planes = lengths.map(|length| Bytes(held(random, length)));
    [Bytes(file)].into_iter().chain(planes).collect()
}

/// A file, and the lengths of the planes that are lent for it: luma, Cb, Cr.
struct Chosen {
    file: Vec<u8>,
    lengths: [usize; 3],
}

/// The lengths are those of the file's layout; now and then one of the first so many planes has another.
fn chosen(random: &mut Random, case: usize, planes: usize) -> Chosen {
    let files = files();
    let (file, layout) = match case.checked_sub(CASES - 1 - files.largest.len()) {
        Some(0) => {
            let (file, _, layout) = refused_largest(planes == 3);
            (file.clone(), *layout)
        }
        Some(which) => files.largest[which - 1].clone(),
        None => match files.listed.get(case) {
            Some(listed) => listed.clone(),
            None => return small(random, &files.small, planes),
        },
    };
    let lengths = lengths(layout);
    Chosen { file, lengths }
}

fn lengths(layout: Layout) -> [usize; 3] {
    let chroma = layout.chroma_samples();
    [layout.samples(), chroma, chroma]
}

/// A file that is damaged once, twice or not at all.
fn small(random: &mut Random, files: &[Vec<u8>], planes: usize) -> Chosen {
    let mut file = files[random.below(files.len())].clone();
    let layout = record::read_head(&file).expect("it is whole yet");
    let mut lengths = lengths(layout);
    let times = random.of(&[0, 1, 1, 1, 2]);
    (0..times).for_each(|_| damage(random, &mut file));
    if random.once_in(20) {
        let length = &mut lengths[random.below(planes)];
        *length = random.of(&[*length - 1, *length + 1, 0, *length + 256]);
    }
    Chosen { file, lengths }
}

struct Files {
    listed: Vec<(Vec<u8>, Layout)>,
    small: Vec<Vec<u8>>,
    largest: Vec<(Vec<u8>, Layout)>,
}

/// Whole files of all kinds.
pub fn small_files() -> &'static [Vec<u8>] {
    &files().small
}

/// Those of the largest pictures, with their layouts.
pub fn largest_files() -> &'static [(Vec<u8>, Layout)] {
    &files().largest
}

/// One of those of the largest pictures, with its last record refused: the colour one, or the mono one.
pub fn refused_largest(colour: bool) -> &'static (Vec<u8>, Told, Layout) {
    static REFUSED: OnceLock<Vec<(Vec<u8>, Told, Layout)>> = OnceLock::new();
    let both = REFUSED.get_or_init(|| {
        let largest = largest_files().iter();
        let refused = largest.map(|(file, layout)| {
            let (file, told) = sizes::spoiled(file, 2);
            (file, told, *layout)
        });
        refused.collect()
    });
    &both[usize::from(!colour)]
}

/// Made once. The small ones are most of 1x1 macroblock, some of up to 3x4 and a few of up to 5x9 in slices, of all QPs: every other one is
/// what the coder makes of a picture, and the rest have records of drawn kinds, modes and levels. Half of them are colour.
fn files() -> &'static Files {
    static FILES: OnceLock<Files> = OnceLock::new();
    FILES.get_or_init(|| {
        let mut random = Random::new(0xF11E5);
        let small = (0..480)
            .map(|number| {
                let sides = match (number % 80, number % 8) {
                    (76.., _) => [5, 9],
                    (_, 4..) => [3, 4],
                    _ => [1, 1],
                };
                let [width, height] = sides.map(|most| random.between(1, most) as usize);
                let layout = Layout {
                    width,
                    height,
                    rows: random.between(1, height as i32) as usize,
                };
                let colour = number / 2 % 2 == 1;
                match number % 2 {
                    0 => coded(&mut random, layout, (number % 52) as u8, colour),
                    _ => drawn(&mut random, layout, colour),
                }
            })
            .collect();
        let largest = LARGEST.into_iter().zip([true, false]);
        let largest = largest.map(|(layout, colour)| {
            let file = coded(&mut random, layout, 28, colour);
            (file, layout)
        });
        Files {
            largest: largest.collect(),
            listed: listed(),
            small,
        }
    })
}

/// What the coder makes of a drawn picture.
pub fn coded(random: &mut Random, layout: Layout, qp: u8, colour: bool) -> Vec<u8> {
    let Layout {
        width,
        height,
        rows,
    } = layout;
    let [luma, cb, cr] = pictures::planes(random, layout);
    let mut rebuilt = lengths(layout).map(|length| vec![0; length]);
    let [luma_out, cb_out, cr_out] = &mut rebuilt;
    let mut file;
    let used = if colour {
        let [cb_offset, cr_offset] = [0; 2].map(|_: i32| random.between(-12, 12));
        file = vec![0; layout.colour_area()];
        reference::code_picture(
            width, height, rows, qp, cb_offset, cr_offset, &luma, &cb, &cr, &mut file, luma_out,
            cb_out, cr_out,
        )
    } else {
        file = vec![0; layout.area()];
        reference::code_plane(width, height, rows, qp, &luma, &mut file, luma_out)
    };
    file.truncate(used.expect("the sizes are right"));
    file
}

/// Drawn macroblocks, amended where they are none; one slice has either head. Chroma comes when luma is accepted, so that a refusal's place
/// is then its own.
fn drawn(random: &mut Random, layout: Layout, colour: bool) -> Vec<u8> {
    let head = match layout.head() {
        Head::Old => random.of(&Head::ALL),
        Head::New => Head::New,
    };
    let mut macroblocks: Vec<Macroblock> = (0..layout.macroblocks())
        .map(|_| macroblock(random))
        .collect();
    let mut plane = vec![0; layout.samples()];
    let mut accepted = |macroblocks: &mut [Macroblock],
                        amend: fn(&mut [Macroblock], Refusal, usize)| loop {
        let file = record::file_with(head, layout, macroblocks).expect("it is a size");
        match reference::decode_plane(&file, &mut plane) {
            Ok(()) => return file,
            Err(refusal) => amend(macroblocks, refusal, head.bytes()),
        }
    };
    let mono = accepted(&mut macroblocks, amend);
    if !colour {
        return mono;
    }
    for macroblock in &mut macroblocks {
        macroblock.chroma = Some(chroma(random));
    }
    accepted(&mut macroblocks, amend_chroma)
}

fn macroblock(random: &mut Random) -> Macroblock {
    let qp = random.byte() % 52;
    let luma = match random.once_in(2) {
        true => Luma::Four(Four {
            modes: std::array::from_fn(|_| random.byte() % 9),
            levels: std::array::from_fn(|_| levels(random)),
        }),
        false => Luma::Sixteen(Sixteen {
            mode: random.byte() % 4,
            dc: levels(random),
            ac: std::array::from_fn(|_| levels(random)),
        }),
    };
    Macroblock {
        qp,
        luma,
        chroma: None,
    }
}

fn chroma(random: &mut Random) -> Chroma {
    let mut levels = || ChromaLevels {
        dc: levels(random),
        ac: std::array::from_fn(|_| levels(random)),
    };
    let levels = [levels(), levels()];
    Chroma {
        offsets: [0; 2].map(|_: i8| random.between(-12, 12) as i8),
        mode: random.byte() % 4,
        levels,
    }
}

/// Levels of a random number of bits.
fn levels<const N: usize>(random: &mut Random) -> [i16; N] {
    let shift = random.between(2, 16);
    std::array::from_fn(|_| (random.between(-32768, 32767) >> shift) as i16)
}

/// Takes away what a macroblock is refused for: the DC mode needs nothing, and small levels are in range.
fn amend(macroblocks: &mut [Macroblock], Refusal { number, place }: Refusal, _: usize) {
    let (record, block) = (place as usize / 16, place as usize % 16);
    match (number, &mut macroblocks[record].luma) {
        (3, Luma::Four(four)) => four.modes[block] = 2,
        (3, Luma::Sixteen(sixteen)) => sixteen.mode = 2,
        (_, Luma::Four(four)) => halve(&mut four.levels[block]),
        (_, Luma::Sixteen(sixteen)) => {
            halve(&mut sixteen.dc);
            halve(sixteen.ac.as_flattened_mut());
        }
    }
}

/// The same of chroma, by its record's first byte.
fn amend_chroma(macroblocks: &mut [Macroblock], Refusal { number, place }: Refusal, head: usize) {
    let mut first = head;
    for macroblock in macroblocks {
        let own = first + macroblock.kind().bytes();
        first += macroblock.bytes();
        if own as u64 != place {
            continue;
        }
        let chroma = macroblock.chroma.as_mut().expect("the file is colour");
        match number {
            3 => chroma.mode = 0,
            _ => {
                for levels in &mut chroma.levels {
                    halve(&mut levels.dc);
                    halve(levels.ac.as_flattened_mut());
                }
            }
        }
    }
}

fn halve(levels: &mut [i16]) {
    levels.iter_mut().for_each(|level| *level /= 2);
}

// ---- the listed files

/// A file that is cut and changed at every byte, and what it is called.
pub struct Whole {
    pub name: &'static str,
    pub file: Vec<u8>,
}

/// Luma of the kinds 16x16, 4x4, 4x4, 16x16; in one slice, and in two; mono, and colour.
pub fn listed_wholes() -> &'static [Whole; 4] {
    static WHOLES: OnceLock<[Whole; 4]> = OnceLock::new();
    WHOLES.get_or_init(|| {
        let four = four([2; 16], std::array::from_fn(|block| [block as i16 - 8; 16]));
        let first = sixteen(20, 2, SLOPE, [[1; 15]; 16]);
        let all = |mode| {
            let last = sixteen(33, mode, SLOPE, [[-1; 15]; 16]);
            [first.clone(), four.clone(), four.clone(), last]
        };
        let whole = |name, file| Whole { name, file };
        [
            whole("with the Old head", file(&all(3))),
            whole("with the New head", file_in_slices(&all(1))),
            whole("in colour with the Old head", colour::whole(2)),
            whole("in colour with the New head", colour::whole(1)),
        ]
    })
}

fn four(modes: [u8; 16], levels: [[i16; 16]; 16]) -> Macroblock {
    Macroblock {
        qp: 28,
        luma: Luma::Four(Four { modes, levels }),
        chroma: None,
    }
}

const SLOPE: [i16; 16] = [9, 8, 7, 6, 5, 4, 3, 2, 1, 0, -1, -2, -3, -4, -5, -6];

fn sixteen(qp: u8, mode: u8, dc: [i16; 16], ac: [[i16; 15]; 16]) -> Macroblock {
    Macroblock {
        qp,
        luma: Luma::Sixteen(Sixteen { mode, dc, ac }),
        chroma: None,
    }
}

fn file(macroblocks: &[Macroblock]) -> Vec<u8> {
    record::file(Layout::one_slice(2, 2), macroblocks).expect("it is a size")
}

/// A slice for each row.
fn file_in_slices(macroblocks: &[Macroblock]) -> Vec<u8> {
    let layout = Layout {
        width: 2,
        height: 2,
        rows: 1,
    };
    record::file(layout, macroblocks).expect("it is a size")
}

/// The bad inputs that must be among the cases.
fn listed() -> Vec<(Vec<u8>, Layout)> {
    let wholes = listed_wholes().iter().map(|whole| &whole.file);
    let files = wholes.flat_map(|whole| [damaged(whole), surplus(whole)].concat());
    let rest = [heads(), modes_in_slices(), contents(), dc_ends()].concat();
    // All of these are of 2x2 macroblocks by their heads.
    let files = files
        .chain(rest)
        .map(|file| (file, Layout::one_slice(2, 2)));
    let named = named().iter();
    let named = named.map(|named| (named.file.clone(), named.layout));
    files.chain(named).collect()
}

/// The listed files with other heads: each byte changed to 0, one more and its complement, also with the sum mended; the other mark; the
/// new head for one slice; and rows that are none.
fn heads() -> Vec<Vec<u8>> {
    let mut files = vec![];
    for Whole { file: whole, .. } in listed_wholes() {
        let kind = Head::of(whole).expect("it is whole");
        let (head, records) = whole.split_at(kind.bytes());
        let bytes = (0..head.len())
            .flat_map(|place| other_values(head[place]).map(|value| changed(head, place, value)));
        let other = Head::ALL.map(|kind| [&kind.mark(), &head[2..]].concat());
        let rows = [0, 1, 2, 3, 65535].map(|rows| Head::New.written(2, 2, rows));
        let heads = with_sums(bytes.chain(other)).into_iter().chain(rows);
        files.extend(heads.map(|head| [head, records.to_vec()].concat()));
    }
    files
}

/// What each byte of a head is changed to.
pub fn other_values(byte: u8) -> [u8; 3] {
    [0, byte.wrapping_add(1), !byte]
}

/// In two slices, each of four macroblocks in turn with every mode of 16x16, and with every mode of 4x4 in every block.
fn modes_in_slices() -> Vec<Vec<u8>> {
    let whole = (0..4).map(|mode| sixteen(28, mode, SLOPE, [[0; 15]; 16]));
    let fours = (0..9).flat_map(|mode| {
        (0..16).map(move |block| {
            let mut modes = [2; 16];
            modes[block] = mode;
            four(modes, [[0; 16]; 16])
        })
    });
    let all: Vec<Macroblock> = whole.chain(fours).collect();
    let in_turn = |number: usize| {
        let place = move |one: &Macroblock| {
            let mut macroblocks = vec![sixteen(28, 2, SLOPE, [[1; 15]; 16]); 4];
            macroblocks[number] = one.clone();
            file_in_slices(&macroblocks)
        };
        all.iter().map(place).collect::<Vec<_>>()
    };
    (0..4).flat_map(in_turn).collect()
}

/// Cut at every byte; every byte with another bit changed, and those of marks, numbers and sums with each; every bit of a number, with
/// the sum mended; the other kinds' marks.
fn damaged(whole: &[u8]) -> Vec<Vec<u8>> {
    let changed = |place: usize, by: u8| {
        let mut file = whole.to_vec();
        file[place] ^= by;
        file
    };
    let cut = (0..whole.len()).map(|length| whole[..length].to_vec());
    let everywhere = (0..whole.len()).map(|place| changed(place, 1 << (place % 8)));
    let mut files: Vec<Vec<u8>> = cut.chain(everywhere).collect();
    for (first, kind) in records(whole) {
        let end = first + kind.bytes();
        let (number, sum) = ([first + 2, first + 3], [end - 2, end - 1]);
        for bit in 0..8 {
            let fields = [[first, first + 1], number, sum];
            let places = fields.as_flattened().iter();
            files.extend(places.map(|&place| changed(place, 1 << bit)));
            files.extend(number.map(|place| {
                let mut file = changed(place, 1 << bit);
                mend(&mut file[first..end]);
                file
            }));
        }
        let others = Kind::ALL.into_iter().filter(|&other| other != kind);
        let marks = others.map(|other| other.mark()[1] ^ kind.mark()[1]);
        files.extend(marks.map(|by| changed(first + 1, by)));
    }
    files
}

/// Bytes behind the last record; also of a file with a wrong sum, which comes before them, and of one whose content is refused.
fn surplus(whole: &[u8]) -> Vec<Vec<u8>> {
    let mut broken = whole.to_vec();
    *broken.last_mut().expect("it has a sum") ^= 1;
    let illegal = file(&vec![sixteen(52, 4, SLOPE, [[0; 15]; 16]); 4]);
    let one_more = sixteen(28, 2, [0; 16], [[0; 15]; 16]).record(4);
    let more = [
        vec![0],
        b"M".to_vec(),
        b"M6".to_vec(),
        one_more,
        vec![0; 1200],
    ];
    let longer = |file: Vec<u8>| more.clone().map(|more| [file.clone(), more].concat());
    [whole.to_vec(), broken, illegal].map(longer).concat()
}

/// Each of four 16x16 records in turn: with every mode; with every QP and a mode that is none; with each AC level out of range, alone,
/// with all later ones, with a DC value out of range, and with a mode that is none. Then several records that are refused.
fn contents() -> Vec<Vec<u8>> {
    let flat = [[0; 15]; 16];
    let modes = (0..=255).map(|mode| sixteen(28, mode, SLOPE, flat));
    let qps = (0..=255).map(|qp| sixteen(qp, 4, SLOPE, flat));
    let ranges = (0..240).flat_map(|index| {
        let (mut one, mut later) = (flat, flat);
        one.as_flattened_mut()[index] = if index % 2 == 0 { i16::MIN } else { i16::MAX };
        later.as_flattened_mut()[index..].fill(i16::MAX);
        [
            sixteen(28, 2, SLOPE, one),
            sixteen(28, 2, SLOPE, later),
            sixteen(28, 2, [i16::MAX; 16], one),
            sixteen(28, 4, SLOPE, one),
        ]
    });
    let bad: Vec<Macroblock> = modes.chain(qps).chain(ranges).collect();
    let in_turn = |number: usize| {
        let place = move |bad: &Macroblock| {
            let mut all = vec![sixteen(28, 2, SLOPE, [[1; 15]; 16]); 4];
            all[number] = bad.clone();
            file(&all)
        };
        bad.iter().map(place).collect::<Vec<_>>()
    };
    let mode = sixteen(28, 4, SLOPE, flat);
    let qp = sixteen(52, 2, SLOPE, flat);
    let range = sixteen(28, 2, [i16::MAX; 16], flat);
    let several = [
        [&mode, &qp, &range],
        [&qp, &range, &mode],
        [&range, &mode, &qp],
    ];
    let several = several.map(|[first, second, third]| {
        let good = sixteen(28, 2, SLOPE, flat);
        let all = [good, first.clone(), second.clone(), third.clone()];
        file(&all)
    });
    [[0, 1, 2, 3].map(in_turn).concat(), several.to_vec()].concat()
}

/// For every QP the DC values next to the ends of 16 bits, at every place, in one of four records.
fn dc_ends() -> Vec<Vec<u8>> {
    let mut files = vec![];
    for qp in 0..=51 {
        for (sum, _) in dc_edges(qp).expect("it is a QP") {
            for place in 0..16 {
                let mut all = vec![sixteen(28, 2, SLOPE, [[1; 15]; 16]); 4];
                all[(place + usize::from(qp)) % 4] =
                    sixteen(qp, 2, dc_levels_at(place, sum), [[0; 15]; 16]);
                files.push(file(&all));
            }
        }
    }
    files
}

// ---- damage

/// The records that begin with a mark that is known and are not cut, up to the first other one: their first bytes and kinds. None where
/// the head's mark is not known.
pub fn records(file: &[u8]) -> Vec<(usize, Kind)> {
    let mut records = vec![];
    let mut at = Head::of(file).map_or(file.len(), Head::bytes);
    let next = |at: usize| {
        let rest = file.get(at..)?;
        let marked = |kind: &Kind| rest.starts_with(&kind.mark()) && rest.len() >= kind.bytes();
        Kind::ALL.into_iter().find(marked)
    };
    while let Some(kind) = next(at) {
        records.push((at, kind));
        at += kind.bytes();
    }
    records
}

/// The sum of a record's earlier bytes into its last two.
pub fn mend(record: &mut [u8]) {
    let end = record.len() - 2;
    let sum = record[..end]
        .iter()
        .fold(0u16, |sum, &byte| sum.wrapping_add(byte.into()));
    record[end..].copy_from_slice(&sum.to_be_bytes());
}

/// One of all kinds of damage. A file that an earlier one has left no record keeps its bytes.
pub fn damage(random: &mut Random, file: &mut Vec<u8>) {
    let records = records(file);
    if records.is_empty() {
        return;
    }
    match random.below(9) {
        0 => any_damage(random, file),
        1 => order_damage(random, file, &records),
        2 => {
            let (first, _) = records[0];
            let head = &mut file[..first];
            head_damage(random, head);
            if random.once_in(2) {
                mend(head);
            }
        }
        _ => {
            let (at, kind) = random.of(&records);
            let record = &mut file[at..at + kind.bytes()];
            record_damage(random, record, kind);
            if !random.once_in(8) {
                mend(record);
            }
        }
    }
}

/// Cut, longer, a byte changed, or two exchanged, which a sum does not show.
fn any_damage(random: &mut Random, file: &mut Vec<u8>) {
    let place = random.below(file.len() - 1);
    match random.below(5) {
        0 => file.truncate(place),
        1 => file.truncate(file.len() - 1),
        2 => file.extend((0..1 + random.below(3)).map(|_| random.byte())),
        3 => file[place] = random.byte(),
        _ => file.swap(place, place + 1),
    }
}

/// A record left out, doubled, or exchanged with the next.
fn order_damage(random: &mut Random, file: &mut Vec<u8>, records: &[(usize, Kind)]) {
    let which = random.below(records.len());
    let (first, kind) = records[which];
    let own = first..first + kind.bytes();
    match (random.below(3), records.get(which + 1)) {
        (0, _) => drop(file.drain(own)),
        (1, _) => {
            let record = file[own].to_vec();
            drop(file.splice(first..first, record));
        }
        (_, Some((_, next))) => file[first..own.end + next.bytes()].rotate_left(kind.bytes()),
        (_, None) => {}
    }
}

/// In the mark, the width, the height, the rows or the sum.
fn head_damage(random: &mut Random, head: &mut [u8]) {
    let sum = head.len() - 2;
    let field = 2 * random.below(head.len() / 2);
    let place = field + random.below(2);
    match field {
        0 => head[place] ^= 1 << random.below(8),
        _ if field == sum => head[place] = random.byte(),
        _ => head[place] = random.byte() % 4,
    }
}

/// In the mark, the number, the QP or an offset, a mode, a level or the sum; mostly in what a decoder can use.
fn record_damage(random: &mut Random, record: &mut [u8], kind: Kind) {
    // What stands before the modes, the modes, and the levels behind them.
    let (quantizers, modes, levels) = match kind {
        Kind::Four => (1, 8, 256),
        Kind::Sixteen => (1, 1, 256),
        Kind::Chroma => (2, 1, 128),
    };
    let quantizer = 4 + random.below(quantizers);
    let mode = 4 + quantizers + random.below(modes);
    let level = 4 + quantizers + modes + 2 * random.below(levels);
    let sum = kind.bytes() - 2;
    match random.below(12) {
        0 => record[random.below(2)] ^= 1 << random.below(8),
        1 => record[2 + random.below(2)] = random.byte() % 4,
        2 if kind == Kind::Chroma => record[quantizer] = random.of(&OFFSETS) as u8,
        2 => record[quantizer] = random.of(&[0, 51, 52, 255]),
        3 => record[quantizer] = random.byte(),
        4 => record[mode] = random.byte(),
        5 => record[mode] = random.byte() % 4,
        6 => record[level] = random.byte(),
        7 => record[sum + random.below(2)] = random.byte(),
        _ => {
            let change = random.between(-40, 40) as i16;
            let old = i16::from_be_bytes([record[level], record[level + 1]]);
            record[level..level + 2].copy_from_slice(&old.wrapping_add(change).to_be_bytes());
        }
    }
}
