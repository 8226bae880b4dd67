//! RESIDUAL, LEVEL and RANGE at their exact limits: for every QP and every place, on both sides of 0, the last number that is accepted and
//! the first that is refused, in a block by itself and in a record of a file. What each must come to is told by its value and its place,
//! and not by the reference.

use crate::named::{Named, Told, LEVEL, MONO, RANGE, RESIDUAL};
use crate::planes::held;
use crate::random::Random;
use crate::request::Argument::{self, Bytes, Number, Numbers};
use reference::extremes::{chroma_dc_edges, chroma_dc_levels_at, dc_edges, dc_levels_at};
use reference::record::{self, Four, Layout, Luma, Macroblock, Sixteen};
use reference::Quantizer;
use std::collections::HashMap;
use std::sync::OnceLock;

/// The inputs of a call; its output is not among them.
pub struct Limit {
    pub inputs: Vec<Argument>,
    pub name: String,
    pub told: Told,
}

/// Those of a function; none where it has no such limit.
pub fn of(function: &str) -> &'static [Limit] {
    all().get(function).map_or(&[], Vec::as_slice)
}

impl Limit {
    /// With an output that holds anything. It has the kind and the length of the first slice that is lent.
    pub fn call(&self, random: &mut Random) -> Vec<Argument> {
        let output = self.inputs.iter().find_map(|input| match input {
            Bytes(lent) => Some(Bytes(held(random, lent.len()))),
            Numbers(lent) => Some(Numbers(lent.iter().map(|_| random.next() as i32).collect())),
            _ => None,
        });
        let output = output.expect("a slice is lent");
        [self.inputs.as_slice(), &[output]].concat()
    }
}

/// By function, made once.
fn all() -> &'static HashMap<&'static str, Vec<Limit>> {
    static ALL: OnceLock<HashMap<&str, Vec<Limit>>> = OnceLock::new();
    ALL.get_or_init(|| {
        HashMap::from([
            ("fb_forward", forward()),
            ("fb_levels", levels()),
            ("fb_rebuild", rebuild()),
            ("fb_rebuild_with_dc", rebuild_with_dc()),
            ("fb_luma_dc_levels", dc_levels(16)),
            ("fb_luma_dc_values", luma_dc_values()),
            ("fb_chroma_dc_levels", dc_levels(4)),
            ("fb_chroma_dc_values", chroma_dc_values()),
        ])
    })
}

/// The name that the inputs of a call have, if they have one.
pub fn name_of(function: &str, arguments: &[Argument]) -> Option<&'static str> {
    type Names = HashMap<&'static [Argument], &'static str>;
    static NAMES: OnceLock<HashMap<&str, Names>> = OnceLock::new();
    let names = NAMES.get_or_init(|| {
        let names = |limits: &'static Vec<Limit>| {
            let pairs = limits.iter();
            let pairs = pairs.map(|limit| (limit.inputs.as_slice(), limit.name.as_str()));
            pairs.collect()
        };
        let each = all().iter();
        each.map(|(&function, limits)| (function, names(limits)))
            .collect()
    });
    let (_, inputs) = arguments.split_last()?;
    names.get(function)?.get(inputs).copied()
}

// ---- the limits

/// The raster place that each step of the zigzag visits.
const ZIGZAG: [usize; 16] = [0, 1, 4, 8, 5, 2, 3, 6, 9, 12, 13, 10, 7, 11, 14, 15];

const DONE: Told = (0, 0);

/// The numbers next to both limits, and what they come to.
fn next_to(limit: i32, accepted: Told, refused: Told) -> [(i32, Told); 4] {
    [
        (-limit - 1, refused),
        (-limit, accepted),
        (limit, accepted),
        (limit + 1, refused),
    ]
}

/// A level that has more than 16 bits is refused by LEVEL; one that has 16 is accepted there, and is then far out of range.
fn level_ends(place: usize, behind: Told) -> [(i32, Told); 4] {
    let refused = (LEVEL, place);
    [
        (-32769, refused),
        (-32768, behind),
        (32767, behind),
        (32768, refused),
    ]
}

/// The levels whose rescaled values are next to the ends of 16 bits, at a step of the zigzag, and whether they are in range.
pub fn range_ends(qp: u8, index: usize) -> [(i32, bool); 4] {
    let (row, column) = (ZIGZAG[index] / 4, ZIGZAG[index] % 4);
    let class = match (row % 2, column % 2) {
        (0, 0) => 0,
        (1, 1) => 1,
        _ => 2,
    };
    let scale = Quantizer::new(qp).expect("it is a QP").scales()[class] as i32;
    [
        (-32768 / scale - 1, false),
        (-32768 / scale, true),
        (32767 / scale, true),
        (32767 / scale + 1, false),
    ]
}

/// Those of LEVEL and of RANGE at a step of the zigzag.
fn block_ends(qp: u8, index: usize) -> Vec<(i32, Told)> {
    let refused = (RANGE, index);
    let told = |legal: bool| if legal { DONE } else { refused };
    let range = range_ends(qp, index).map(|(level, legal)| (level, told(legal)));
    [range, level_ends(index, refused)].concat()
}

/// Zeros, but for one place.
fn alone(count: usize, place: usize, number: i32) -> Vec<i32> {
    let mut numbers = vec![0; count];
    numbers[place] = number;
    numbers
}

/// Of a function whose inputs are a QP and a list of numbers.
fn of_list(qp: u8, what: &str, numbers: Vec<i32>, told: Told) -> Limit {
    Limit {
        inputs: vec![Number(qp.into()), Numbers(numbers)],
        name: format!("{what}, QP {qp}"),
        told,
    }
}

// ---- blocks

fn forward() -> Vec<Limit> {
    let mut limits = vec![];
    for place in 0..16 {
        for (number, told) in next_to(255, DONE, (RESIDUAL, place)) {
            limits.push(Limit {
                inputs: vec![Numbers(alone(16, place, number))],
                name: format!("a residual of {number} at {place}"),
                told,
            });
        }
    }
    limits
}

fn levels() -> Vec<Limit> {
    residuals(16, 255)
}

fn dc_levels(count: usize) -> Vec<Limit> {
    residuals(count, 4080)
}

fn residuals(count: usize, limit: i32) -> Vec<Limit> {
    let mut limits = vec![];
    for (qp, place) in (0..=51).flat_map(|qp| (0..count).map(move |place| (qp, place))) {
        for (number, told) in next_to(limit, DONE, (RESIDUAL, place)) {
            let what = format!("a residual of {number} at {place}");
            limits.push(of_list(qp, &what, alone(count, place, number), told));
        }
    }
    limits
}

/// Some prediction, another one for each QP.
fn prediction(qp: u8) -> Argument {
    Bytes((0..16).map(|place| (5 * qp) ^ (16 * place)).collect())
}

fn rebuild() -> Vec<Limit> {
    let mut limits = vec![];
    for (qp, index) in (0..=51).flat_map(|qp| (0..16).map(move |index| (qp, index))) {
        for (level, told) in block_ends(qp, index) {
            limits.push(Limit {
                inputs: vec![
                    Number(qp.into()),
                    prediction(qp),
                    Numbers(alone(16, index, level)),
                ],
                name: format!("a level of {level} at {index}, QP {qp}"),
                told,
            });
        }
    }
    limits
}

/// The AC levels, which are counted from 1 in a refusal, and the DC value, which comes rescaled.
fn rebuild_with_dc() -> Vec<Limit> {
    let mut limits = vec![];
    for qp in 0..=51 {
        let mut of = |what: String, dc: i32, ac: Vec<i32>, told: Told| {
            limits.push(Limit {
                inputs: vec![
                    Number(qp.into()),
                    prediction(qp),
                    Number(dc.into()),
                    Numbers(ac),
                ],
                name: format!("{what}, QP {qp}"),
                told,
            });
        };
        for index in 1..16 {
            for (level, told) in block_ends(qp, index) {
                let what = format!("a level of {level} at {index}");
                of(what, 0, alone(15, index - 1, level), told);
            }
        }
        let refused = (RANGE, 0);
        for (dc, told) in [
            (-32769, refused),
            (-32768, DONE),
            (32767, DONE),
            (32768, refused),
        ] {
            of(format!("a DC value of {dc}"), dc, vec![0; 15], told);
        }
    }
    limits
}

/// A single level has its whole size at every place of the transform, and its sign at the first: so RANGE names that.
fn dc_values(
    count: usize,
    edges: impl Fn(u8) -> [(i32, i64); 4],
    levels_at: impl Fn(usize, i32) -> Vec<i32>,
) -> Vec<Limit> {
    let mut limits = vec![];
    for (qp, index) in (0..=51).flat_map(|qp| (0..count).map(move |index| (qp, index))) {
        for (level, told) in level_ends(index, (RANGE, 0)) {
            let what = format!("a level of {level} at {index}");
            limits.push(of_list(qp, &what, alone(count, index, level), told));
        }
        for (sum, value) in edges(qp) {
            let told = match value {
                -32768..=32767 => DONE,
                _ => (RANGE, index),
            };
            let what = format!("a DC value of {value} at {index}");
            limits.push(of_list(qp, &what, levels_at(index, sum), told));
        }
    }
    limits
}

/// RANGE names the step of the zigzag at which a value stands.
fn luma_dc_values() -> Vec<Limit> {
    let edges = |qp| dc_edges(qp).expect("it is a QP");
    dc_values(16, edges, |index, sum| {
        dc_levels_at(ZIGZAG[index], sum).map(i32::from).to_vec()
    })
}

fn chroma_dc_values() -> Vec<Limit> {
    let edges = |qp| chroma_dc_edges(qp).expect("it is a QP");
    dc_values(4, edges, |place, sum| {
        chroma_dc_levels_at(place, sum).map(i32::from).to_vec()
    })
}

// ---- records

/// In files of two macroblocks: every level of a 4x4 block, every AC level and every DC value of a 16x16 record. The macroblock and the
/// block change from one to the next. (`colour.rs` has the same of chroma records.)
pub fn files() -> Vec<Named> {
    let mut named = vec![];
    for (qp, index) in (0..=51).flat_map(|qp| (0..16).map(move |index| (qp, index))) {
        let number = (usize::from(qp) + index) % 2;
        for (which, (level, legal)) in range_ends(qp, index).into_iter().enumerate() {
            let block = (usize::from(qp) + 5 * index + 3 * which) % 16;
            let told = match legal {
                true => MONO,
                false => (RANGE, 16 * number + block),
            };
            let level = level as i16;
            let what = format!("a level of {level} at {index} of block {block}");
            named.push(file(&what, number, qp, four(block, index, level), told));
            if index > 0 {
                let what = format!("an AC level of {level} at {index} of block {block}");
                named.push(file(&what, number, qp, ac(block, index, level), told));
            }
        }
        for (sum, value) in dc_edges(qp).expect("it is a QP") {
            let told = match value {
                -32768..=32767 => MONO,
                _ => (RANGE, 16 * number),
            };
            let what = format!("a DC value of {value} at {index}");
            named.push(file(&what, number, qp, dc(ZIGZAG[index], sum), told));
        }
    }
    named
}

fn four(block: usize, index: usize, level: i16) -> Luma {
    let mut levels = [[0; 16]; 16];
    levels[block][index] = level;
    Luma::Four(Four {
        modes: [2; 16],
        levels,
    })
}

fn ac(block: usize, index: usize, level: i16) -> Luma {
    let mut ac = [[0; 15]; 16];
    ac[block][index - 1] = level;
    let dc = [0; 16];
    Luma::Sixteen(Sixteen { mode: 2, dc, ac })
}

fn dc(place: usize, sum: i32) -> Luma {
    Luma::Sixteen(Sixteen {
        mode: 2,
        dc: dc_levels_at(place, sum),
        ac: [[0; 15]; 16],
    })
}

/// Beside another macroblock, of the other kind.
fn file(what: &str, number: usize, qp: u8, luma: Luma, told: Told) -> Named {
    let kind = match luma {
        Luma::Four(_) => "4x4",
        Luma::Sixteen(_) => "16x16",
    };
    let other = match luma {
        Luma::Four(_) => ac(3, 1, 2),
        Luma::Sixteen(_) => four(3, 1, 2),
    };
    let of = |qp, luma| Macroblock {
        qp,
        luma,
        chroma: None,
    };
    let mut macroblocks = [of(qp, luma), of(30, other)];
    macroblocks.rotate_right(number);
    let layout = Layout::one_slice(2, 1);
    Named {
        name: format!("{what} in a {kind} record, QP {qp}, macroblock {number}"),
        file: record::file(layout, &macroblocks).expect("it is a size"),
        layout,
        told,
    }
}

#[cfg(test)]
mod tests {
    use super::*;
    use crate::request::word;
    use reference::calls::{self, Call};

    /// What is told here is what the reference answers, for each function.
    #[test]
    fn the_reference_answers_as_told() {
        let calls: [(&str, Call); 8] = [
            ("fb_forward", calls::forward),
            ("fb_levels", calls::levels),
            ("fb_rebuild", calls::rebuild),
            ("fb_rebuild_with_dc", calls::rebuild_with_dc),
            ("fb_luma_dc_levels", calls::luma_dc_levels),
            ("fb_luma_dc_values", calls::luma_dc_values),
            ("fb_chroma_dc_levels", calls::chroma_dc_levels),
            ("fb_chroma_dc_values", calls::chroma_dc_values),
        ];
        assert_eq!(calls.len(), all().len());
        let mut random = Random::new(1);
        for (function, call) in calls {
            for limit in of(function) {
                let mut arguments = limit.call(&mut random);
                let word = word(call(&mut arguments));
                let told = (word % 256, (word / 256) as usize);
                assert_eq!(told, limit.told, "{function}: {}", limit.name);
                assert_eq!(name_of(function, &arguments), Some(limit.name.as_str()));
            }
        }
    }

    /// For every QP and place two are accepted and two refused, of each kind of record.
    #[test]
    fn half_of_the_files_are_refused() {
        let files = files();
        assert_eq!(files.len(), 52 * 4 * (16 + 15 + 16));
        for kind in ["in a 4x4", "an AC level", "a DC value"] {
            let own = files.iter().filter(|it| it.name.contains(kind));
            let refused = own.clone().filter(|it| it.told.0 == RANGE);
            assert_eq!(2 * refused.count(), own.count(), "{kind}");
        }
        let names: std::collections::HashSet<&str> =
            files.iter().map(|it| it.name.as_str()).collect();
        assert_eq!(names.len(), files.len(), "every file has a name of its own");
    }
}
