//! Arguments of the coder of colour pictures: planes, offsets, and all that is none.

use crate::planes::{held, plane, LARGEST};
use crate::random::Random;
use crate::request::Argument::{self, Bytes, Number};
use crate::sizes;
use reference::record::{Head, Layout};
use std::sync::OnceLock;

/// The listed calls first, then drawn ones, and two of the largest last.
pub const CASES: usize = 100_000;

/// Offsets at their ends, just behind them and at the ends of a byte.
pub const OFFSETS: [i8; 6] = [-128, -13, -12, 12, 13, 127];

/// Offsets that are none: the bytes among the above; the ends of 32 bits; and those whose low byte is a legal one.
pub const BAD_OFFSETS: [i32; 11] = [
    -13,
    13,
    -128,
    127,
    i32::MIN,
    i32::MAX,
    256,
    -256,
    244,
    -244,
    1 << 24,
];

/// The slices in their order.
pub const SLICES: [&str; 7] = ["luma", "Cb", "Cr", "file", "luma out", "Cb out", "Cr out"];

struct Call {
    layout: Layout,
    qp: u8,
    offsets: [i32; 2],
    slices: [Vec<u8>; 7],
}

pub fn code_picture(random: &mut Random, case: usize) -> Vec<Argument> {
    let call = match case.checked_sub(CASES - LARGEST.len()) {
        Some(which) => good(random, LARGEST[which]),
        None => match listed().get(case) {
            Some(listed) => listed.call(random),
            None => drawn(random),
        },
    };
    let Layout {
        width,
        height,
        rows,
    } = call.layout;
    let numbers = [width, height, rows, call.qp.into()].map(|number| Number(number as i64));
    let offsets = call.offsets.map(|offset| Number(offset.into()));
    let slices = call.slices.map(Bytes);
    numbers.into_iter().chain(offsets).chain(slices).collect()
}

/// Luma, Cb and Cr. Now and then the chroma planes are one, or one of them is flat.
pub fn planes(random: &mut Random, layout: Layout) -> [Vec<u8>; 3] {
    let Layout { width, height, .. } = layout;
    let luma = plane(random, 16, width, height);
    let [mut cb, mut cr] = [8; 2].map(|side| plane(random, side, width, height));
    match random.below(10) {
        0 => cr = cb.clone(),
        1 => cr.fill(128),
        2 => cb.fill(random.byte()),
        3 => [&mut cb, &mut cr]
            .into_iter()
            .for_each(|plane| plane.fill(128)),
        _ => {}
    }
    [luma, cb, cr]
}

/// A picture with areas of its lengths, which hold anything.
fn good(random: &mut Random, layout: Layout) -> Call {
    let [luma, cb, cr] = planes(random, layout);
    let chroma = layout.chroma_samples();
    let outputs = [layout.colour_area(), layout.samples(), chroma, chroma];
    let [file, luma_out, cb_out, cr_out] = outputs.map(|length| held(random, length));
    Call {
        layout,
        qp: random.byte() % 52,
        offsets: [0; 2].map(|_: i32| random.between(-12, 12)),
        slices: [luma, cb, cr, file, luma_out, cb_out, cr_out],
    }
}

/// What is wrong with a listed call.
#[derive(Clone, Copy)]
enum Wrong {
    Nothing,
    /// The area is lent for this head.
    Head(Head),
    /// The area is lent for a mono file.
    Mono,
    /// The QP; the offsets, too, if told so.
    Qp(bool),
    /// Of Cb or of Cr.
    Offset(usize, i32),
    /// A slice is longer or shorter by this.
    Length(usize, isize),
}

struct Listed(Layout, Wrong);

/// Small sizes with every number of rows up to one above the height, with 65535 and with the greatest: each with an area for either head,
/// and with a QP that is none. A picture in one slice and one in two, with every slice one off and empty, and with every offset that is none.
/// Then sizes in between, with a QP that is one and with one that is none.
fn listed() -> &'static [Listed] {
    static LISTED: OnceLock<Vec<Listed>> = OnceLock::new();
    LISTED.get_or_init(|| {
        let mut listed = vec![];
        for (width, height) in (1..=2).flat_map(|width| (1..=4).map(move |height| (width, height)))
        {
            for rows in (0..=height + 1).chain([65535, usize::MAX]) {
                let layout = Layout {
                    width,
                    height,
                    rows,
                };
                listed.extend(Head::ALL.map(|head| Listed(layout, Wrong::Head(head))));
                listed.extend([Wrong::Qp(false), Wrong::Qp(true)].map(|it| Listed(layout, it)));
                listed.push(Listed(layout, Wrong::Mono));
            }
        }
        for (height, rows) in [(1, 1), (2, 1)] {
            let layout = Layout {
                width: 1,
                height,
                rows,
            };
            let lengths = (0..7).flat_map(|slice| {
                [-1, 1, isize::MIN].map(|by| Listed(layout, Wrong::Length(slice, by)))
            });
            listed.extend(lengths);
            let offsets = (0..2).flat_map(|plane| {
                BAD_OFFSETS.map(|offset| Listed(layout, Wrong::Offset(plane, offset)))
            });
            listed.extend(offsets);
            let legal = (-12..=12).flat_map(|offset| {
                [0, 1].map(|plane| Listed(layout, Wrong::Offset(plane, offset)))
            });
            listed.extend(legal);
            listed.push(Listed(layout, Wrong::Nothing));
        }
        for &layout in sizes::layouts() {
            listed.extend([Wrong::Nothing, Wrong::Qp(false)].map(|it| Listed(layout, it)));
        }
        listed
    })
}

impl Listed {
    fn call(&self, random: &mut Random) -> Call {
        let &Listed(layout, wrong) = self;
        let mut call = good(random, layout);
        let area = layout.colour_area();
        match wrong {
            Wrong::Nothing => {}
            Wrong::Head(head) => {
                call.slices[3].resize(area - layout.head().bytes() + head.bytes(), 0x5A);
            }
            Wrong::Mono => call.slices[3].truncate(layout.area()),
            Wrong::Qp(offsets) => {
                call.qp = random.of(&[52, 255]);
                if offsets {
                    call.offsets = [13; 2];
                }
            }
            Wrong::Offset(plane, offset) => call.offsets[plane] = offset,
            Wrong::Length(slice, by) => resize(&mut call.slices[slice], by),
        }
        call
    }
}

fn resize(slice: &mut Vec<u8>, by: isize) {
    slice.resize(slice.len().saturating_add_signed(by), 0x5A);
}

/// A picture of one macroblock or a few, in slices, now and then with something that is wrong.
fn drawn(random: &mut Random) -> Call {
    let sides = match random.below(200) {
        0 => [6, 9],
        1..20 => [3, 4],
        20..80 => [2, 2],
        _ => [1, 1],
    };
    let [width, height] = sides.map(|most| random.between(1, most) as usize);
    let rows = random.between(1, height as i32) as usize;
    let mut call = good(
        random,
        Layout {
            width,
            height,
            rows,
        },
    );
    match random.below(24) {
        0 => call.qp = random.byte(),
        1 => call.qp = random.of(&[0, 51, 52, 255]),
        2 => call.offsets[random.below(2)] = random.of(&BAD_OFFSETS),
        3 => call.offsets = call.offsets.map(|_| random.of(&[-13, -12, 12, 13])),
        _ => {}
    }
    let layout = &mut call.layout;
    match random.below(40) {
        0 if random.once_in(2) => layout.width = random.of(&[0, 129, 256, usize::MAX]),
        0 => layout.height = random.of(&[0, 129, 256, usize::MAX]),
        1 if random.once_in(2) => layout.width += 1,
        1 => layout.height += 1,
        2..5 => {
            let slice = &mut call.slices[random.below(7)];
            let by = random.of(&[-1, 1, isize::MIN, 64]);
            resize(slice, by);
        }
        // Just the bytes of a file with some 16x16 records.
        5 => {
            let shorter = 7 * (1 + random.below(width * height));
            call.slices[3].truncate(layout.colour_area() - shorter);
        }
        6 => layout.rows = random.of(&[0, height + 1, 65535, usize::MAX]),
        7 => layout.rows = random.between(1, height as i32) as usize,
        _ => {}
    }
    call
}
