//! Kinds of cases of colour pictures: what was chosen for chroma, and what a call was refused for.

use crate::kinds::{
    coded, every_slicing, of_bad_rows, of_choice, of_slicing, other_area, BAD_ROWS, JUST_USED, REST,
};
use crate::pictures::{BAD_OFFSETS, SLICES};
use crate::request::Argument::{self, Bytes, Number};
use crate::sizes;
use reference::record::{self, Head, Layout};
use reference::{code_picture_by, ChromaSads, Picture, Sads};

const PLANES: [&str; 2] = ["Cb", "Cr"];

// ---- coding

const TIE: &str = "two chroma modes alike";
const NOT_BY_CB: &str = "another chroma mode than by Cb alone";
const NOT_BY_CR: &str = "another chroma mode than by Cr alone";
const MONO_AREA: &str = "an area for a mono file";
const QP: &str = "a QP above 51, and offsets that are legal";
const QP_AND_OFFSETS: &str = "a QP above 51, and offsets that are not";
const ENDS: &str = "offsets at both ends";

/// A permitted mode that is chosen, and how many of the four are.
fn chosen(mode: u8, permitted: usize) -> String {
    format!("chroma coded by mode {mode} of {permitted} that are permitted")
}

fn bad_offset(plane: usize, offset: i64) -> String {
    format!("{}'s offset of {offset} in the call", PLANES[plane])
}

fn length(slice: &str, longer: bool) -> String {
    let by = if longer { "longer" } else { "shorter" };
    format!("{slice} {by} than it should be, alone")
}

pub fn required_of_coding() -> Vec<String> {
    let named = [
        TIE,
        NOT_BY_CB,
        NOT_BY_CR,
        MONO_AREA,
        QP,
        QP_AND_OFFSETS,
        ENDS,
        REST,
        JUST_USED,
    ];
    let named = named.into_iter().chain(BAD_ROWS).map(str::to_owned);
    // With nothing beside it DC alone is; with one side two are; with all four.
    let modes = [
        (0, 1),
        (0, 2),
        (1, 2),
        (2, 2),
        (0, 4),
        (1, 4),
        (2, 4),
        (3, 4),
    ];
    let modes = modes.map(|(mode, permitted)| chosen(mode, permitted));
    let offsets = [0, 1].map(|plane| BAD_OFFSETS.map(|offset| bad_offset(plane, offset.into())));
    let lengths = SLICES.map(|slice| [false, true].map(|longer| length(slice, longer)));
    named
        .chain(modes)
        .chain(offsets.into_iter().flatten())
        .chain(lengths.into_iter().flatten())
        .chain((0..4).map(coded))
        .chain(Head::ALL.map(other_area))
        .chain(every_slicing(4))
        .chain(sizes::required_of_coding())
        .collect()
}

/// Codes once more, to see the choices.
pub fn of_coding(word: u64, arguments: &[Argument]) -> Vec<String> {
    let (numbers, slices) = arguments.split_at(6);
    let numbers: Vec<i64> = numbers.iter().map(number).collect();
    let [width, height, rows] = [0, 1, 2].map(|place| numbers[place] as usize);
    let layout = Layout {
        width,
        height,
        rows,
    };
    let offsets = [numbers[4], numbers[5]];
    let slices: Vec<&[u8]> = slices.iter().map(bytes).collect();
    let mut kinds = match word % 256 {
        0 => of_coded(layout, numbers[3] as u8, offsets, &slices),
        1 => of_wrong_length(layout, numbers[3] as u8, offsets, &slices),
        2 => of_quantizer(numbers[3], offsets),
        _ => of_bad_rows(layout),
    };
    kinds.extend(sizes::of_coding(word, layout));
    kinds
}

fn number(argument: &Argument) -> i64 {
    let Number(number) = argument else {
        unreachable!()
    };
    *number
}

fn bytes(argument: &Argument) -> &[u8] {
    let Bytes(bytes) = argument else {
        unreachable!()
    };
    bytes
}

fn of_coded(layout: Layout, qp: u8, offsets: [i64; 2], slices: &[&[u8]]) -> Vec<String> {
    let mut kinds = of_slicing(layout);
    if offsets == [-12, 12] || offsets == [12, -12] {
        kinds.push(ENDS.to_owned());
    }
    let mut luma_kinds = vec![];
    let luma = |sads: &Sads| {
        luma_kinds.extend(of_choice(sads));
        sads.sixteen_wins()
    };
    let chroma = |sads: &ChromaSads| {
        kinds.extend(of_chroma(sads));
        sads.best()
    };
    let used = used(luma, chroma, layout, qp, offsets, slices);
    kinds.extend((used < Some(slices[3].len())).then(|| REST.to_owned()));
    kinds.extend(luma_kinds);
    kinds
}

/// What the coder uses of an area that is right, where the planes and the offsets are.
fn used(
    luma: impl FnMut(&Sads) -> bool,
    chroma: impl FnMut(&ChromaSads) -> u8,
    layout: Layout,
    qp: u8,
    offsets: [i64; 2],
    slices: &[&[u8]],
) -> Option<usize> {
    let picture = Picture {
        layout,
        qp,
        offsets: offsets.map(|offset| offset as i32),
        planes: [slices[0], slices[1], slices[2]],
    };
    let mut file = vec![0; layout.colour_area()];
    let [mut one, mut two, mut three] = picture.planes.map(<[u8]>::to_vec);
    let rebuilt = [&mut one, &mut two, &mut three].map(Vec::as_mut_slice);
    code_picture_by(luma, chroma, &picture, &mut file, rebuilt).ok()
}

fn of_chroma(sads: &ChromaSads) -> Vec<String> {
    let best = sads.best();
    let summed = sads.summed();
    let permitted = summed.iter().flatten().count();
    let mut kinds = vec![chosen(best, permitted)];
    let least = summed[usize::from(best)];
    let ties = summed.iter().filter(|&&sad| sad == least).count();
    kinds.extend((ties > 1).then(|| TIE.to_owned()));
    for (plane, name) in [NOT_BY_CB, NOT_BY_CR].into_iter().enumerate() {
        let alone = ChromaSads([sads.0[plane]; 2]).best();
        kinds.extend((alone != best).then(|| name.to_owned()));
    }
    kinds
}

/// The lengths that the slices should have.
fn right(layout: Layout) -> [usize; 7] {
    let (luma, chroma) = (layout.samples(), layout.chroma_samples());
    let area = layout.colour_area();
    [luma, chroma, chroma, area, luma, chroma, chroma]
}

/// LENGTH comes behind SIZE, so that the size is one.
fn of_wrong_length(layout: Layout, qp: u8, offsets: [i64; 2], slices: &[&[u8]]) -> Vec<String> {
    let right = right(layout);
    let wrong: Vec<usize> = (0..7)
        .filter(|&slice| slices[slice].len() != right[slice])
        .collect();
    let &[only] = wrong.as_slice() else {
        return vec![];
    };
    let lent = slices[only].len();
    let mut kinds = vec![length(SLICES[only], lent > right[only])];
    if only == 3 {
        let records = right[3] - layout.head().bytes();
        let other = Head::ALL.iter().any(|head| head.bytes() + records == lent);
        kinds.extend(other.then(|| other_area(layout.head())));
        kinds.extend((lent == layout.area()).then(|| MONO_AREA.to_owned()));
        let choices = (Sads::sixteen_wins, ChromaSads::best);
        let used = used(choices.0, choices.1, layout, qp, offsets, slices);
        kinds.extend((used == Some(lent)).then(|| JUST_USED.to_owned()));
    }
    kinds
}

fn of_quantizer(qp: i64, offsets: [i64; 2]) -> Vec<String> {
    let legal = |offset: i64| (-12..=12).contains(&offset);
    match (qp > 51, offsets.map(legal)) {
        (true, [true, true]) => vec![QP.to_owned()],
        (true, [false, false]) => vec![QP_AND_OFFSETS.to_owned()],
        (false, [false, true]) => vec![bad_offset(0, offsets[0])],
        (false, [true, false]) => vec![bad_offset(1, offsets[1])],
        _ => vec![],
    }
}

// ---- decoding: the lengths of the planes

fn plane_length(colour: bool, plane: usize, longer: bool) -> String {
    let kind = if colour { "a colour" } else { "a mono" };
    format!("{}, of {kind} file", length(SLICES[plane], longer))
}

pub fn required_lengths() -> Vec<String> {
    let mut kinds = vec![];
    for colour in [false, true] {
        for plane in 0..3 {
            kinds.extend([false, true].map(|longer| plane_length(colour, plane, longer)));
        }
    }
    kinds
}

/// Of a call that is refused by LENGTH, where the records of the file are whole.
pub fn of_lengths(word: u64, arguments: &[Argument]) -> Vec<String> {
    let slices: Vec<&[u8]> = arguments.iter().map(bytes).collect();
    let (1, Ok(layout)) = (word % 256, record::read_head(slices[0])) else {
        return vec![];
    };
    let Ok(macroblocks) = record::read_records(slices[0], layout.macroblocks()) else {
        return vec![];
    };
    let colour = macroblocks[0].chroma.is_some();
    let right = right(layout);
    let planes = (0..3).map(|plane| (plane, slices[1 + plane].len(), right[plane]));
    let wrong: Vec<_> = planes.filter(|(_, lent, right)| lent != right).collect();
    match wrong.as_slice() {
        &[(plane, lent, right)] => vec![plane_length(colour, plane, lent > right)],
        _ => vec![],
    }
}
