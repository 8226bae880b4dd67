//! Kinds of deliveries: what was accepted, where planes differ, and what was refused before they were compared.

use crate::inspections::{self, Named, WAYS};
use crate::kinds::{parts, told};
use crate::reasons;
use crate::request::Argument::{self, Bytes};
use reference::decode_plane;
use reference::record::{read_head, read_records, Layout};

const SEVERAL: &str = "several macroblocks differ";
const ONE_SAMPLE: &str = "one sample differs";
const BLOCKS: &str = "another sample than the first by the order of blocks";
const ROWS: &str = "another macroblock than the first by the rows of the plane";
const FIRST_SAMPLE: &str = "the first sample of a macroblock";
const LAST_SAMPLE: &str = "the last sample of a macroblock";
const LARGEST: &str = "the last sample of the largest picture";
const WHERE: [&str; 4] = [
    "in the only macroblock",
    "in the first macroblock",
    "in a middle macroblock",
    "in the last macroblock",
];

fn accepted(colour: bool, slices: bool, size: &str) -> String {
    let kind = if colour { "colour" } else { "mono" };
    let slices = if slices { "slices" } else { "one slice" };
    format!("accepted, {kind} in {slices}, {size}")
}

fn position(picture: usize, way: u8, number: usize, sample: usize) -> String {
    format!("sample {sample} of macroblock {number} changed by {way} in picture {picture} of 3x3")
}

pub fn required() -> Vec<String> {
    let named = inspections::named().iter();
    let named = named.map(|Named { name, told: by, .. }| told(name.clone(), *by));
    let positions = (0..2 * 2 * 9 * 256).map(|which| {
        let (sample, number) = (which % 256, which / 256 % 9);
        let name = position(which / 4608, WAYS[which / 2304 % 2], number, sample);
        told(name, (17, 256 * number + sample))
    });
    let small = [(false, false), (false, true), (true, false), (true, true)];
    let small = small.map(|(colour, slices)| accepted(colour, slices, SMALL));
    let large = [(true, false), (false, true)];
    let large = large.map(|(colour, slices)| accepted(colour, slices, LARGE));
    let others = [
        SEVERAL,
        ONE_SAMPLE,
        BLOCKS,
        ROWS,
        FIRST_SAMPLE,
        LAST_SAMPLE,
        LARGEST,
    ];
    let others = others.into_iter().chain(WHERE).chain(reasons::ALL);
    let others = others.map(str::to_owned);
    named
        .chain(positions)
        .chain(small)
        .chain(large)
        .chain(others)
        .collect()
}

const SMALL: &str = "a small picture";
const LARGE: &str = "the largest picture";

fn size(layout: Layout) -> &'static str {
    match layout.macroblocks() {
        16384 => LARGE,
        _ => SMALL,
    }
}

pub fn of(word: u64, arguments: &[Argument]) -> Vec<String> {
    let [Bytes(file), Bytes(theirs)] = arguments else {
        unreachable!()
    };
    let names = inspections::names_of(file, theirs).into_iter();
    let mut kinds: Vec<String> = names
        .map(|name| told(name.to_owned(), parts(word)))
        .collect();
    kinds.extend(reasons::of(parts(word), file).map(str::to_owned));
    match (word % 256, read_head(file)) {
        (0, Ok(layout)) => {
            let macroblocks = read_records(file, layout.macroblocks()).expect("it is accepted");
            let colour = macroblocks[0].chroma.is_some();
            kinds.push(accepted(colour, layout.rows < layout.height, size(layout)));
        }
        (17, Ok(layout)) => kinds.extend(of_different(word, layout, file, theirs)),
        _ => {}
    }
    kinds
}

/// By the samples that differ.
fn of_different(word: u64, layout: Layout, file: &[u8], theirs: &[u8]) -> Vec<String> {
    let mut ours = vec![0; theirs.len()];
    decode_plane(file, &mut ours).expect("DIFFERS comes behind the decoder's refusals");
    let unlike = inspections::unlike(layout.width, &ours, theirs);
    let (number, sample) = unlike[0];
    let last = layout.macroblocks() - 1;
    let mut kinds = vec![];
    kinds.push(match number {
        0 if last == 0 => WHERE[0],
        0 => WHERE[1],
        _ if number < last => WHERE[2],
        _ => WHERE[3],
    });
    kinds.extend((unlike.len() == 1).then_some(ONE_SAMPLE));
    kinds.extend((sample == 0).then_some(FIRST_SAMPLE));
    kinds.extend((sample == 255).then_some(LAST_SAMPLE));
    kinds.extend((unlike[unlike.len() - 1].0 > number).then_some(SEVERAL));
    kinds.extend((number == 16383 && sample == 255).then_some(LARGEST));
    let own = unlike.iter().filter(|it| it.0 == number);
    let by_blocks = own.map(|it| (block(it.1), it.1)).min();
    kinds.extend((by_blocks != Some((block(sample), sample))).then_some(BLOCKS));
    let place = |it: &(usize, usize)| inspections::place_of(layout.width, it.0, it.1);
    let by_rows = unlike.iter().min_by_key(|it| place(it));
    kinds.extend((by_rows.map(|it| it.0) != Some(number)).then_some(ROWS));
    let mut kinds: Vec<String> = kinds.into_iter().map(str::to_owned).collect();
    if let [(number, sample)] = unlike[..] {
        let place = place(&(number, sample));
        let way = ours[place] ^ theirs[place];
        let pictures = inspections::pictures().iter();
        let picture = pictures
            .into_iter()
            .position(|picture| picture.file == file);
        kinds.extend(picture.map(|it| told(position(it, way, number, sample), parts(word))));
    }
    kinds
}

/// The block of a sample of a macroblock.
fn block(sample: usize) -> usize {
    let (column, row) = (sample % 16 / 4, sample / 64);
    column % 2 + 2 * (row % 2) + 4 * (column / 2) + 8 * (row / 2)
}
