//! Pictures of sizes between the small ones and the largest: every width and every height from 4 to 127, mostly of one row or one column,
//! since long ones take long. Each is also refused at its end, so that all that an output held before must be there behind.

use crate::files::{coded, mend, records};
use crate::named::{Named, Told, COLOUR, FLAGS, MODE, MONO, QUANTIZER, RANGE};
use crate::random::Random;
use reference::record::{Kind, Layout};
use std::sync::OnceLock;

/// Thicker ones.
const OTHERS: [[usize; 2]; 12] = [
    [37, 5],
    [5, 37],
    [17, 4],
    [4, 90],
    [64, 2],
    [3, 100],
    [127, 2],
    [2, 127],
    [50, 3],
    [33, 7],
    [12, 11],
    [100, 3],
];

/// In slices of any number of rows.
pub fn layouts() -> &'static [Layout] {
    static LAYOUTS: OnceLock<Vec<Layout>> = OnceLock::new();
    LAYOUTS.get_or_init(|| {
        let mut random = Random::new(0x512E5);
        let thin = (4..=127).flat_map(|side| [[side, 1], [1, side]]);
        let layout = |[width, height]: [usize; 2]| Layout {
            width,
            height,
            rows: random.between(1, height as i32) as usize,
        };
        thin.chain(OTHERS).map(layout).collect()
    })
}

fn picture(layout: Layout) -> String {
    let Layout {
        width,
        height,
        rows,
    } = layout;
    format!("a picture of {width}x{height} macroblocks in slices of {rows} rows")
}

// ---- coding

fn coding(layout: Layout, number: u64) -> String {
    format!("{} comes to {number}", picture(layout))
}

/// Each is coded, and is refused for its QP.
pub fn required_of_coding() -> impl Iterator<Item = String> {
    let each = layouts().iter();
    each.flat_map(|&layout| [0, QUANTIZER].map(|number| coding(layout, number)))
}

pub fn of_coding(word: u64, layout: Layout) -> Option<String> {
    let own = layouts().contains(&layout);
    own.then(|| coding(layout, word % 256))
}

// ---- files

/// A file with its last record spoiled, with its sum: by the quantizer or an offset, by the mode or by the last level; and what it is
/// refused by.
pub fn spoiled(file: &[u8], way: usize) -> (Vec<u8>, Told) {
    let records = records(file);
    let &(first, kind) = records.last().expect("it is whole");
    let luma = records.iter().filter(|(_, kind)| *kind != Kind::Chroma);
    let block = |block: usize| match kind {
        Kind::Chroma => first,
        _ => 16 * (luma.clone().count() - 1) + block,
    };
    let mut file = file.to_vec();
    let record = &mut file[first..];
    let told = match (way % 3, kind) {
        (0, Kind::Chroma) => {
            record[4] = 13;
            (QUANTIZER, block(0))
        }
        (0, _) => {
            record[4] = 52;
            (QUANTIZER, block(0))
        }
        (1, Kind::Four) => {
            record[12] |= 0xF0;
            (MODE, block(15))
        }
        (1, _) => {
            record[if kind == Kind::Chroma { 6 } else { 5 }] = 4;
            (MODE, block(0))
        }
        _ => {
            let level = kind.bytes() - 4;
            record[level..level + 2].copy_from_slice(&i16::MAX.to_be_bytes());
            (RANGE, block(15))
        }
    };
    mend(record);
    (file, told)
}

/// A file, and the same with its last record refused.
pub struct Pair {
    pub whole: Named,
    pub refused: Named,
}

/// What the coder makes of a picture of each size, every fourth in colour. Made once.
pub fn pairs() -> &'static [Pair] {
    static PAIRS: OnceLock<Vec<Pair>> = OnceLock::new();
    PAIRS.get_or_init(|| {
        let mut random = Random::new(0xF512E5);
        let each = layouts().iter().enumerate();
        each.map(|(number, &layout)| pair(&mut random, number, layout))
            .collect()
    })
}

fn pair(random: &mut Random, number: usize, layout: Layout) -> Pair {
    let colour = number % 4 == 3;
    let file = coded(random, layout, (number % 52) as u8, colour);
    let kind = if colour { "in colour" } else { "in mono" };
    let name = format!("{} {kind}", picture(layout));
    let (other, told) = spoiled(&file, number);
    Pair {
        refused: Named {
            name: format!("{name}, its last record refused"),
            file: other,
            layout,
            told,
        },
        whole: Named {
            name,
            file,
            layout,
            told: if colour { COLOUR } else { MONO },
        },
    }
}

// ---- sheets

fn sheet(layout: Layout, (number, place): Told) -> String {
    let Layout { width, height, .. } = layout;
    format!("a sheet of {width}x{height} macroblocks comes to {number} at {place}")
}

/// Each has a sheet, and none where the last byte of its map is no flag.
pub fn required_of_sheets() -> Vec<String> {
    let each = layouts().iter();
    let told = |layout: Layout| [(0, 1), (FLAGS, layout.macroblocks() - 1)];
    each.flat_map(|&layout| told(layout).map(|told| sheet(layout, told)))
        .collect()
}

pub fn of_sheet(word: u64, width: usize, height: usize) -> Option<String> {
    let same = |layout: &&Layout| (layout.width, layout.height) == (width, height);
    let layout = layouts().iter().find(same)?;
    Some(sheet(*layout, (word % 256, (word / 256) as usize)))
}

#[cfg(test)]
mod tests {
    use super::*;

    #[test]
    fn every_width_and_every_height_is_there() {
        for side in 4..=127 {
            assert!(layouts().iter().any(|layout| layout.width == side));
            assert!(layouts().iter().any(|layout| layout.height == side));
        }
        let slices = |layout: &Layout| (1..=layout.height).contains(&layout.rows);
        assert!(layouts().iter().all(slices));
        // So much takes no longer than two pictures of the largest size.
        let all: usize = layouts().iter().map(|layout| layout.macroblocks()).sum();
        assert!(all < 2 * 128 * 128, "{all}");
    }

    /// For each kind of a last record and each way.
    #[test]
    fn spoiled_files_are_refused_as_told() {
        let mut random = Random::new(1);
        let layout = Layout {
            width: 3,
            height: 2,
            rows: 1,
        };
        let mut kinds = vec![];
        for number in 0..24 {
            let file = coded(&mut random, layout, number, number % 3 == 0);
            let last = records(&file).last().expect("it is whole").1;
            for way in 0..3 {
                let (file, (number, place)) = spoiled(&file, way);
                let mut plane = vec![7; layout.samples()];
                let refusal = reference::decode_plane(&file, &mut plane).unwrap_err();
                assert_eq!(
                    (refusal.number as u64, refusal.place as usize),
                    (number, place)
                );
                assert!(plane.iter().all(|&sample| sample == 7));
            }
            kinds.push(last);
        }
        for kind in Kind::ALL {
            assert!(kinds.contains(&kind), "{kind:?}");
        }
    }
}
