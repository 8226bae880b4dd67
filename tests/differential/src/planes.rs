//! Arguments of the coder of planes: pictures in slices, and sizes and rows that are none.

use crate::random::Random;
use crate::request::Argument::{self, Bytes, Number};
use crate::sizes;
use reference::record::{Head, Layout};
use std::sync::OnceLock;

/// The listed calls first, then drawn ones, and two of the largest last.
pub const CASES: usize = 100_000;

/// The largest picture in one slice, and in two.
pub const LARGEST: [Layout; 2] = [
    Layout {
        width: 128,
        height: 128,
        rows: 128,
    },
    Layout {
        width: 128,
        height: 128,
        rows: 100,
    },
];

struct Call {
    layout: Layout,
    qp: u8,
    plane: Vec<u8>,
    file: Vec<u8>,
    rebuilt: Vec<u8>,
}

pub fn code_plane(random: &mut Random, case: usize) -> Vec<Argument> {
    let call = match case.checked_sub(CASES - LARGEST.len()) {
        Some(which) => good(random, LARGEST[which]),
        None => match listed().get(case) {
            Some(listed) => listed_call(random, listed),
            None => drawn(random),
        },
    };
    let Layout {
        width,
        height,
        rows,
    } = call.layout;
    let numbers = [width, height, rows, call.qp.into()].map(|number| Number(number as i64));
    let lent = [call.plane, call.file, call.rebuilt].map(Bytes);
    numbers.into_iter().chain(lent).collect()
}

/// A picture with areas of its lengths, which hold anything.
fn good(random: &mut Random, layout: Layout) -> Call {
    let plane = picture(random, layout.width, layout.height);
    Call {
        layout,
        qp: random.byte() % 52,
        file: held(random, layout.area()),
        rebuilt: held(random, plane.len()),
        plane,
    }
}

/// A layout, the head that the area is lent for, and whether the QP is legal.
struct Listed(Layout, Head, bool);

/// Small sizes with every number of rows up to one above the height, with 65535 and with the greatest: each with an area for either head,
/// and with a QP that is none. Then sizes in between, with a QP that is one and with one that is none.
fn listed() -> &'static [Listed] {
    static LISTED: OnceLock<Vec<Listed>> = OnceLock::new();
    LISTED.get_or_init(|| {
        let mut listed = vec![];
        for (width, height) in (1..=3).flat_map(|width| (1..=5).map(move |height| (width, height)))
        {
            for rows in (0..=height + 1).chain([65535, usize::MAX]) {
                let layout = Layout {
                    width,
                    height,
                    rows,
                };
                listed.extend(Head::ALL.map(|head| Listed(layout, head, true)));
                listed.push(Listed(layout, layout.head(), false));
            }
        }
        for &layout in sizes::layouts() {
            listed.extend([true, false].map(|legal| Listed(layout, layout.head(), legal)));
        }
        listed
    })
}

fn listed_call(random: &mut Random, &Listed(layout, head, legal): &Listed) -> Call {
    let mut call = good(random, layout);
    let area = layout.area() - layout.head().bytes() + head.bytes();
    call.file.resize(area, 0x5A);
    if !legal {
        call.qp = random.of(&[52, 255]);
    }
    call
}

/// A picture of one macroblock or a few, in slices, now and then with something that is wrong.
fn drawn(random: &mut Random) -> Call {
    let sides = match random.below(200) {
        0 => [6, 9],
        1..20 => [3, 4],
        _ => [1, 1],
    };
    let [width, height] = sides.map(|most| random.between(1, most) as usize);
    let rows = random.between(1, height as i32) as usize;
    let mut call = good(
        random,
        Layout {
            width,
            height,
            rows,
        },
    );
    match random.below(24) {
        0 => call.qp = random.byte(),
        1 => call.qp = random.of(&[0, 51, 52, 255]),
        _ => {}
    }
    let layout = &mut call.layout;
    match random.below(40) {
        0 if random.once_in(2) => layout.width = random.of(&[0, 129, 256, usize::MAX]),
        0 => layout.height = random.of(&[0, 129, 256, usize::MAX]),
        1 if random.once_in(2) => layout.width += 1,
        1 => layout.height += 1,
        2 => resize(random, &mut call.plane),
        3 => resize(random, &mut call.file),
        4 => resize(random, &mut call.rebuilt),
        // Just the bytes of a file with some 16x16 records.
        5 => {
            let shorter = 7 * (1 + random.below(width * height));
            call.file.truncate(layout.area() - shorter);
        }
        6 => layout.rows = random.of(&[0, height + 1, 65535, usize::MAX]),
        7 => layout.rows = random.between(1, height as i32) as usize,
        _ => {}
    }
    call
}

/// A picture of slopes with noise, so that every mode of 4x4 is chosen somewhere; now and then only black and white, or plain ground.
pub fn picture(random: &mut Random, width: usize, height: usize) -> Vec<u8> {
    plane(random, 16, width, height)
}

/// A plane in which a macroblock has this side: 16 in luma, 8 in chroma.
pub fn plane(random: &mut Random, side: usize, width: usize, height: usize) -> Vec<u8> {
    if random.below(8) < [1, 6][usize::from(width * height > 1)] {
        return plain(random, side, width, height);
    }
    let (down, right, noise) = (random.below(12), random.below(12), 1 + random.below(90));
    let hard = random.once_in(8);
    let sample = |place: usize| {
        let (x, y) = (place % (side * width), place / (side * width));
        match hard {
            true => random.of(&[0, 255]),
            false => (right * x + down * y + x / side * 40 + random.below(noise)) as u8,
        }
    };
    (0..side * side * width * height).map(sample).collect()
}

/// Plain ground with little noise or none, on which 16x16 wins now and then: waves of columns or of rows, a slope, grain round one grey,
/// or patches of it.
fn plain(random: &mut Random, side: usize, width: usize, height: usize) -> Vec<u8> {
    let (kind, grey, noise) = (
        random.below(6),
        random.of(&[60, 128, 128, 200]),
        random.of(&[1, 2, 4, 9]),
    );
    let (down, right, step) = (random.below(4), random.below(4), random.between(3, 40));
    let wave = |along: usize| 40 + (along as i32 * step % 200 - 100).unsigned_abs() as usize;
    let sample = |place: usize| {
        let (x, y) = (place % (side * width), place / (side * width));
        let noise = random.below(noise);
        let sample = match kind {
            0 => wave(x) + noise,
            1 => wave(y) + noise,
            2 | 3 => 20 + right * x + down * y + noise,
            4 if (x / side + y / side).is_multiple_of(2) => grey,
            _ => grey - 16 + random.below(32),
        };
        sample.min(255) as u8
    };
    (0..side * side * width * height).map(sample).collect()
}

/// An output as it is before the call: a refusal must leave these very bytes.
pub fn held(random: &mut Random, length: usize) -> Vec<u8> {
    (0..length).map(|_| random.byte()).collect()
}

fn resize(random: &mut Random, slice: &mut Vec<u8>) {
    let length = random.of(&[slice.len() - 1, slice.len() + 1, 0, 2 * slice.len()]);
    slice.resize(length, 0x5A);
}
