//! Colour files that have names.

use crate::limits::range_ends;
use crate::named::{Named, Told, COLOUR, FORM, MARK, MODE, MONO, NUMBER, QUANTIZER, RANGE};
use crate::pictures::OFFSETS;
use reference::chroma_quantizer;
use reference::extremes::{chroma_dc_edges, chroma_dc_levels_at};
use reference::record::{
    self, Chroma, ChromaLevels, Four, Head, Kind, Layout, Luma, Macroblock, Sixteen,
};

pub fn files() -> Vec<Named> {
    let mut named = vec![];
    for rows in [1, 2] {
        named.extend(order(rows));
        named.extend(modes(rows));
    }
    named.extend(behind_one_macroblock());
    named.extend(offsets());
    named.extend(ranges());
    named.extend(dc_ends());
    named.extend(ac_ends());
    named.extend(content_order());
    named
}

// ---- the ground that they are made of

fn layout(rows: usize) -> Layout {
    Layout {
        width: 2,
        height: 2,
        rows,
    }
}

/// A 2x2 file in slices of so many rows.
pub fn whole(rows: usize) -> Vec<u8> {
    file(rows, &ground())
}

fn file(rows: usize, macroblocks: &[Macroblock]) -> Vec<u8> {
    record::file(layout(rows), macroblocks).expect("it is a size")
}

/// Luma of the kinds 16x16, 4x4, 4x4, 16x16; chroma of the DC mode, in which no two samples of an edge are alike.
fn ground() -> [Macroblock; 4] {
    std::array::from_fn(|number| Macroblock {
        chroma: Some(chroma(number)),
        ..luma(number)
    })
}

fn luma(number: usize) -> Macroblock {
    let luma = match number {
        0 | 3 => Luma::Sixteen(Sixteen {
            mode: 2,
            dc: std::array::from_fn(|index| 9 - index as i16),
            ac: [[1; 15]; 16],
        }),
        _ => Luma::Four(Four {
            modes: [2; 16],
            levels: std::array::from_fn(|block| [block as i16 - 8; 16]),
        }),
    };
    Macroblock {
        qp: 28,
        luma,
        chroma: None,
    }
}

fn chroma(number: usize) -> Chroma {
    let levels = |plane: i16| ChromaLevels {
        dc: std::array::from_fn(|index| [7, -3, 5, 2][(index + number) % 4] - plane),
        ac: std::array::from_fn(|block| {
            std::array::from_fn(|index| match index {
                0..3 => (block as i16 + index as i16 * 2 + plane) % 5 - 2,
                _ => 0,
            })
        }),
    };
    Chroma {
        offsets: [-2, 3],
        mode: 0,
        levels: [levels(0), levels(4)],
    }
}

/// The records of the ground: luma of macroblock m is 2m, and its chroma 2m + 1.
fn records() -> Vec<Vec<u8>> {
    let both = (0..).zip(ground()).map(|(number, macroblock)| {
        let own = macroblock.chroma.as_ref().expect("it is colour");
        [macroblock.record(number), own.record(number)]
    });
    both.flatten().collect()
}

/// A chroma record's first byte in a file that begins with these macroblocks.
fn place(rows: usize, macroblocks: &[Macroblock], number: usize) -> usize {
    let before = macroblocks[..number].iter().map(Macroblock::bytes);
    layout(rows).head().bytes() + before.sum::<usize>() + macroblocks[number].kind().bytes()
}

/// The ground with the chroma of one macroblock changed. The number is that of a refusal, whose place is the record's; or 0.
fn with(
    name: String,
    rows: usize,
    number: usize,
    by: u64,
    change: impl FnOnce(&mut Chroma),
) -> Named {
    let mut macroblocks = ground();
    let own = macroblocks[number].chroma.as_mut();
    change(own.expect("it is colour"));
    let told = match by {
        0 => COLOUR,
        _ => (by, place(rows, &macroblocks, number)),
    };
    Named {
        name: format!("{name} in macroblock {number}, slices of {rows} rows"),
        file: file(rows, &macroblocks),
        layout: layout(rows),
        told,
    }
}

const PLANES: [&str; 2] = ["Cb", "Cr"];

// ---- form

/// Chroma records left out, doubled and moved, and in a mono file: "11 where the record is missing or not expected".
fn order(rows: usize) -> Vec<Named> {
    let records = records();
    let head = record::head(layout(rows)).expect("it is a size");
    let built = |order: &[usize]| {
        let records = order.iter().map(|&record| records[record].as_slice());
        [head.clone(), records.collect::<Vec<_>>().concat()].concat()
    };
    let of = |what: &str, order: &[usize], told: Told| Named {
        name: format!("{what} ({order:?}), slices of {rows} rows"),
        file: built(order),
        layout: layout(rows),
        told,
    };
    // At the record that stands there in this order: its mark, or its number.
    let mark = |what: &str, order: &[usize], at: usize| {
        let first = built(&order[..at]).len();
        of(what, order, (MARK, first))
    };
    let number = |what: &str, order: &[usize], at: usize| {
        let first = built(&order[..at]).len();
        of(what, order, (NUMBER, first + 2))
    };
    let form = |what: &str, order: &[usize]| of(what, order, (FORM, built(order).len()));
    const OUT: &str = "a chroma record left out";
    const TWICE: &str = "a chroma record doubled";
    const MOVED: &str = "a chroma record moved";
    const IN_MONO: &str = "a chroma record in a mono file";
    vec![
        of("a colour file", &[0, 1, 2, 3, 4, 5, 6, 7], COLOUR),
        of("a mono file", &[0, 2, 4, 6], MONO),
        mark(OUT, &[0, 2, 3, 4, 5, 6, 7], 2),
        mark(OUT, &[0, 1, 2, 4, 5, 6, 7], 3),
        mark(OUT, &[0, 1, 2, 3, 4, 6, 7], 5),
        form(OUT, &[0, 1, 2, 3, 4, 5, 6]),
        mark(
            "all chroma records but the first left out",
            &[0, 1, 2, 4, 6],
            3,
        ),
        mark(TWICE, &[0, 1, 1, 2, 3, 4, 5, 6, 7], 2),
        mark(TWICE, &[0, 1, 2, 3, 3, 4, 5, 6, 7], 4),
        mark(TWICE, &[0, 1, 2, 3, 4, 5, 5, 6, 7], 6),
        form(TWICE, &[0, 1, 2, 3, 4, 5, 6, 7, 7]),
        mark(MOVED, &[1, 0, 2, 3, 4, 5, 6, 7], 0),
        mark(MOVED, &[0, 2, 1, 3, 4, 5, 6, 7], 2),
        mark(MOVED, &[0, 1, 3, 2, 4, 5, 6, 7], 2),
        mark(MOVED, &[0, 1, 2, 4, 3, 5, 6, 7], 3),
        mark(MOVED, &[0, 1, 2, 3, 4, 5, 7, 6], 6),
        form(MOVED, &[0, 2, 4, 6, 1]),
        number("two chroma records exchanged", &[0, 3, 2, 1, 4, 5, 6, 7], 1),
        number("two chroma records exchanged", &[0, 1, 2, 5, 4, 3, 6, 7], 3),
        number("two chroma records exchanged", &[0, 1, 2, 3, 4, 7, 6, 5], 5),
        mark(IN_MONO, &[0, 2, 3, 4, 6], 2),
        mark(IN_MONO, &[0, 2, 4, 5, 6], 3),
        form(IN_MONO, &[0, 2, 4, 6, 7]),
        form(
            "all chroma records behind those of luma",
            &[0, 2, 4, 6, 1, 3, 5, 7],
        ),
    ]
}

/// A file of one macroblock, with this many bytes of a chroma record behind its luma record, or others.
fn behind_one_macroblock() -> Vec<Named> {
    let layout = Layout::one_slice(1, 1);
    let mut named = vec![];
    for (kind, number) in [(Kind::Sixteen, 0), (Kind::Four, 1)] {
        let own = chroma(0).record(0);
        for head in Head::ALL {
            let luma = [head.written(1, 1, 1), luma(number).record(0)].concat();
            let mut of = |what: String, behind: &[u8], told: fn(usize) -> Told| {
                let file = [luma.as_slice(), behind].concat();
                named.push(Named {
                    name: format!(
                        "one macroblock of {kind:?} behind the {head:?} head, and {what}"
                    ),
                    told: told(file.len()),
                    file,
                    layout,
                });
            };
            of("0 bytes".to_owned(), &[], |_| MONO);
            for bytes in 1..265 {
                of(format!("{bytes} bytes"), &own[..bytes], |length| {
                    (FORM, length)
                });
            }
            of("a chroma record".to_owned(), &own, |_| COLOUR);
            let longer = [own.as_slice(), &[0]].concat();
            of("a chroma record and a byte".to_owned(), &longer, |length| {
                (FORM, length)
            });
            for other in [b"C", b"B"] {
                of(format!("the byte {other:?}"), other, |length| {
                    (FORM, length)
                });
            }
            for mark in [*b"MB", *b"M6", *b"CM", *b"MD", *b"NC"] {
                let other = [&mark, &own[2..]].concat();
                of(format!("the mark {mark:?}"), &mark, |length| (FORM, length));
                of(
                    format!("a record with the mark {mark:?}"),
                    &other,
                    |length| (FORM, length),
                );
            }
            let other = chroma(0).record(1);
            of(
                "a chroma record of macroblock 1".to_owned(),
                &other,
                |length| (NUMBER, length - 263),
            );
        }
    }
    named
}

// ---- content

/// Offsets at and behind their ends, each alone, and with all that comes behind them wrong too.
fn offsets() -> Vec<Named> {
    let mut named = vec![];
    for number in 0..4 {
        for (plane, name) in PLANES.into_iter().enumerate() {
            for offset in OFFSETS {
                let by = match offset {
                    -12..=12 => 0,
                    _ => QUANTIZER,
                };
                let what = format!("{name}'s offset of {offset}");
                named.push(with(what.clone(), 2, number, by, |chroma| {
                    chroma.offsets[plane] = offset;
                }));
                if by == QUANTIZER {
                    let what = format!("{what}, a mode of 4 and levels out of range");
                    named.push(with(what, 2, number, by, |chroma| {
                        chroma.offsets[plane] = offset;
                        chroma.mode = 4;
                        chroma.levels[0].dc[0] = i16::MAX;
                        chroma.levels[1].ac[3][14] = i16::MIN;
                    }));
                }
            }
        }
    }
    named
}

/// Modes at every place, and with levels out of range behind them.
fn modes(rows: usize) -> Vec<Named> {
    let mut named = vec![];
    for number in 0..4 {
        let left = number % 2 == 1;
        let above = number / 2 == 1 && rows == 2;
        for mode in (0..=8).chain([127, 128, 255]) {
            let permitted = match mode {
                0 => true,
                1 => left,
                2 => above,
                3 => left && above,
                _ => false,
            };
            let refused = |else_by| if permitted { else_by } else { MODE };
            let what = format!("chroma mode {mode}");
            named.push(with(what.clone(), rows, number, refused(0), |chroma| {
                chroma.mode = mode;
            }));
            let what = format!("{what} and levels out of range");
            named.push(with(what, rows, number, refused(RANGE), |chroma| {
                chroma.mode = mode;
                chroma.levels[0].dc[0] = i16::MAX;
                chroma.levels[1].ac[3][14] = i16::MIN;
            }));
        }
    }
    named
}

/// Every level out of range, alone and with all later ones.
fn ranges() -> Vec<Named> {
    let mut named = vec![];
    for (plane, name) in PLANES.into_iter().enumerate() {
        for index in 0..64 {
            let value = [i16::MIN, i16::MAX][index % 2];
            let set = |levels: &mut ChromaLevels, index: usize| match index {
                0..4 => levels.dc[index] = value,
                _ => levels.ac.as_flattened_mut()[index - 4] = value,
            };
            let what = format!("level {index} of {name} out of range");
            named.push(with(what.clone(), 2, index % 4, RANGE, |chroma| {
                set(&mut chroma.levels[plane], index);
            }));
            let what = format!("{what}, and all later ones");
            named.push(with(what, 1, index % 4, RANGE, |chroma| {
                (index..64).for_each(|index| set(&mut chroma.levels[plane], index));
            }));
        }
    }
    named
}

/// A QP and an offset that make this chroma quantizer.
fn made_by(quantizer: u8) -> (u8, i8) {
    let all = (0..=51).flat_map(|qp| (-12..=12).map(move |offset| (qp, offset)));
    let some: Vec<(u8, i8)> = all
        .filter(|&(qp, offset)| chroma_quantizer(qp, offset.into()) == Ok(quantizer))
        .collect();
    some[usize::from(quantizer) * 7 % some.len()]
}

/// The only plane with levels; the other one has another offset, so that no quantizer serves for both.
fn alone(
    what: String,
    quantizer: u8,
    plane: usize,
    number: usize,
    legal: bool,
    levels: ChromaLevels,
) -> Named {
    let (qp, offset) = made_by(quantizer);
    let mut macroblocks = ground();
    macroblocks[number].qp = qp;
    let own = macroblocks[number].chroma.as_mut().expect("it is colour");
    let flat = ChromaLevels {
        dc: [0; 4],
        ac: [[0; 15]; 4],
    };
    own.levels = [flat.clone(), flat];
    own.levels[plane] = levels;
    own.offsets[plane] = offset;
    own.offsets[1 - plane] = if offset == 0 { 12 } else { -offset };
    let told = match legal {
        true => COLOUR,
        false => (RANGE, place(2, &macroblocks, number)),
    };
    // The luma of the ground is in range at the QP that this has.
    if let Luma::Four(four) = &mut macroblocks[number].luma {
        four.levels = [[0; 16]; 16];
    }
    if let Luma::Sixteen(sixteen) = &mut macroblocks[number].luma {
        (sixteen.dc, sixteen.ac) = ([0; 16], [[0; 15]; 16]);
    }
    Named {
        name: format!(
            "{what} of {} at quantizer {quantizer}, which is QP {qp} and {offset}, in macroblock {number}",
            PLANES[plane]
        ),
        file: file(2, &macroblocks),
        layout: layout(2),
        told,
    }
}

/// For every chroma quantizer, which is 39 at the most, the DC values next to the ends of 16 bits, at every place of both planes.
fn dc_ends() -> Vec<Named> {
    let mut named = vec![];
    for quantizer in 0..=39 {
        for (sum, value) in chroma_dc_edges(quantizer).expect("it is a quantizer") {
            for place in 0..4 {
                for plane in 0..2 {
                    let levels = ChromaLevels {
                        dc: chroma_dc_levels_at(place, sum),
                        ac: [[0; 15]; 4],
                    };
                    let number = (place + usize::from(quantizer) + plane) % 4;
                    let legal = i16::try_from(value).is_ok();
                    let what = format!("a DC value of {value} at {place}");
                    named.push(alone(what, quantizer, plane, number, legal, levels));
                }
            }
        }
    }
    named
}

/// The same of AC levels, at every place.
fn ac_ends() -> Vec<Named> {
    let mut named = vec![];
    for (quantizer, index) in (0..=39).flat_map(|it| (1..16).map(move |index| (it, index))) {
        for (level, legal) in range_ends(quantizer, index) {
            for plane in 0..2 {
                let block = (usize::from(quantizer) + index) % 4;
                let mut ac = [[0; 15]; 4];
                ac[block][index - 1] = level as i16;
                let levels = ChromaLevels { dc: [0; 4], ac };
                let what = format!("an AC level of {level} at {index} of block {block}");
                let number = (block + plane) % 4;
                named.push(alone(what, quantizer, plane, number, legal, levels));
            }
        }
    }
    named
}

/// "Content order is the order of the records: luma m, chroma m, luma m + 1."
fn content_order() -> Vec<Named> {
    let mut named = vec![];
    for (luma, chroma) in (0..4).flat_map(|luma| (0..4).map(move |chroma| (luma, chroma))) {
        for by in [QUANTIZER, MODE, RANGE] {
            let mut macroblocks = ground();
            macroblocks[luma].qp = 52;
            let own = macroblocks[chroma].chroma.as_mut().expect("it is colour");
            match by {
                QUANTIZER => own.offsets[1] = 13,
                MODE => own.mode = 4,
                _ => own.levels[1].dc[3] = i16::MIN,
            }
            // The quantizer of chroma is luma's, which is none: it comes first.
            let told = match luma <= chroma {
                true => (QUANTIZER, 16 * luma),
                false => (by, place(2, &macroblocks, chroma)),
            };
            named.push(Named {
                name: format!("QP 52 in macroblock {luma}, and refusal {by} in chroma of {chroma}"),
                file: file(2, &macroblocks),
                layout: layout(2),
                told,
            });
        }
    }
    named
}
