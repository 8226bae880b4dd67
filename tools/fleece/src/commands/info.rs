//! `fleece info`: what a record file holds.

use crate::arguments::{Arguments, Form};
use crate::files::Source;
use crate::{Console, Failure, DONE};
use fleecebutton::{decode_picture, Kind, Layout, Records, SIDE};
use std::collections::BTreeMap;
use std::fmt::Display;

pub const FORM: Form = Form { command: "info", switches: &[], operands: 1..=1 };

const OF_FOUR: &[&str] =
    &["vertical", "horizontal", "DC", "down-left", "down-right", "vertical-right", "horizontal-down", "vertical-left", "horizontal-up"];
const OF_SIXTEEN: &[&str] = &["vertical", "horizontal", "DC", "plane"];
const OF_CHROMA: &[&str] = &["DC", "horizontal", "vertical", "plane"];

pub fn run(arguments: &Arguments, console: &mut Console) -> Result<u8, Failure> {
    let source = Source::read(arguments.required(0)?, console)?;
    // only of a file that the decoder accepts is it known what its bytes are
    let decoded = decode_picture(&source.bytes).map_err(|why| Failure::refused(&source.name, why))?;
    let mut figures = Figures::default();
    Records::of(&source.bytes).for_each(|record| figures.count(&record));
    console.answer(&figures.text(decoded.layout, source.bytes.len()))?;
    Ok(DONE)
}

/// How often each number occurs.
type Counts<T> = BTreeMap<T, usize>;

/// What is counted in the records of a file.
#[derive(Default)]
struct Figures {
    qps: Counts<u8>,
    offsets: Counts<[i8; 2]>,
    of_four: Counts<u8>,
    of_sixteen: Counts<u8>,
    of_chroma: Counts<u8>,
    records: [usize; 3],
    levels: usize,
    zeros: usize,
}

impl Figures {
    fn count(&mut self, record: &fleecebutton::Record) {
        let (place, modes) = match record.kind() {
            Kind::Four => (0, &mut self.of_four),
            Kind::Sixteen => (1, &mut self.of_sixteen),
            Kind::Chroma => (2, &mut self.of_chroma),
        };
        self.records[place] += 1;
        record.modes().into_iter().for_each(|mode| *modes.entry(mode).or_default() += 1);
        record.qp().into_iter().for_each(|qp| *self.qps.entry(qp).or_default() += 1);
        record.offsets().into_iter().for_each(|offsets| *self.offsets.entry(offsets).or_default() += 1);
        for level in record.levels() {
            self.levels += 1;
            self.zeros += usize::from(level == 0);
        }
    }

    fn text(&self, layout: Layout, bytes: usize) -> String {
        let Layout { width, height, rows } = layout;
        let [four, sixteen, chroma] = self.records;
        let colour = chroma > 0;
        let (slices, row) = (height.div_ceil(rows.max(1)), if rows == 1 { "row" } else { "rows" });
        let mut lines = vec![
            format!("size: {} x {} samples, {width} x {height} macroblocks", SIDE * width, SIDE * height),
            format!("slices: {slices}, of {rows} {row} of macroblocks"),
            format!("planes: {}", if colour { "luma, Cb, Cr (colour, 4:2:0)" } else { "luma (mono)" }),
            format!("file: {bytes} bytes"),
            format!("records: {four} of 4x4, {sixteen} of 16x16, {chroma} of chroma"),
            format!("QP: {}", listed(&self.qps, |qp| qp.to_string())),
        ];
        if colour {
            lines.push(format!("chroma offsets: {}", listed(&self.offsets, |[cb, cr]| format!("Cb {cb} Cr {cr}"))));
        }
        let modes =
            [("4x4 blocks", &self.of_four, OF_FOUR), ("16x16", &self.of_sixteen, OF_SIXTEEN), ("chroma", &self.of_chroma, OF_CHROMA)];
        for (what, counts, names) in modes.into_iter().filter(|(_, counts, _)| !counts.is_empty()) {
            lines.push(format!("modes of {what}: {}", listed(counts, |mode| named(*mode, names))));
        }
        let share = 100.0 * self.zeros as f64 / self.levels.max(1) as f64;
        lines.push(format!("levels: {}, {} of them zero ({share:.1} %)", self.levels, self.zeros));
        lines.join("\n") + "\n"
    }
}

/// A mode by its number and name.
fn named(mode: u8, names: &[&str]) -> String {
    let name = names.get(usize::from(mode)).copied().unwrap_or("unknown");
    format!("{mode} {name}")
}

/// Each with how often it occurs.
fn listed<T, S: Display>(counts: &Counts<T>, name: impl Fn(&T) -> S) -> String {
    let each: Vec<String> = counts.iter().map(|(it, count)| format!("{} ({count})", name(it))).collect();
    each.join(", ")
}
