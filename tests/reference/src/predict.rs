//! Intra 4x4 prediction (clause 8.3.1.2) and the choice of a mode.

use crate::neighbours::Neighbours;
use crate::refusal::{lent, lent_mut, Refusal};

/// The nine modes; the discriminant is the mode's number.
#[derive(Clone, Copy, Debug, PartialEq, Eq)]
#[repr(u8)]
pub enum Mode {
    Vertical = 0,
    Horizontal = 1,
    Dc = 2,
    DownLeft = 3,
    DownRight = 4,
    VerticalRight = 5,
    HorizontalDown = 6,
    VerticalLeft = 7,
    HorizontalUp = 8,
}

impl Mode {
    /// All modes, each at the index of its number.
    pub const ALL: [Mode; 9] = [
        Mode::Vertical,
        Mode::Horizontal,
        Mode::Dc,
        Mode::DownLeft,
        Mode::DownRight,
        Mode::VerticalRight,
        Mode::HorizontalDown,
        Mode::VerticalLeft,
        Mode::HorizontalUp,
    ];

    pub fn from_number(number: u8) -> Option<Mode> {
        Mode::ALL.get(usize::from(number)).copied()
    }
}

/// What the chooser found.
#[derive(Clone, Copy, Debug, PartialEq, Eq)]
pub struct Choice {
    pub mode: Mode,
    pub sad: u32,
}

/// Predicts a block by one mode. Refusals: LENGTH, FLAGS, MODE.
pub fn predict(neighbours: &[u8], flags: u8, mode: u8, out: &mut [u8]) -> Result<(), Refusal> {
    let neighbours = lent::<_, 13>(neighbours)?;
    let out = lent_mut::<_, 16>(out)?;
    let neighbours = Neighbours::new(neighbours, flags)?;
    let mode = Mode::from_number(mode).ok_or(Refusal::MODE)?;
    *out = predicted(&neighbours, mode).ok_or(Refusal::MODE)?;
    Ok(())
}

/// Finds the best mode and writes its prediction. Refusals: LENGTH, FLAGS.
pub fn choose(
    neighbours: &[u8],
    flags: u8,
    samples: &[u8],
    prediction: &mut [u8],
) -> Result<Choice, Refusal> {
    let neighbours = lent::<_, 13>(neighbours)?;
    let samples = lent::<_, 16>(samples)?;
    let prediction = lent_mut::<_, 16>(prediction)?;
    let neighbours = Neighbours::new(neighbours, flags)?;
    let (choice, best) = best_mode(&neighbours, samples);
    *prediction = best;
    Ok(choice)
}

/// The permitted mode with the least SAD, the lower number on a tie, and its
/// prediction.
pub(crate) fn best_mode(neighbours: &Neighbours, samples: &[u8; 16]) -> (Choice, [u8; 16]) {
    // The modes come in the order of their numbers, and only a smaller SAD
    // displaces the best so far: the lower number wins a tie.
    let mut best: Option<(Choice, [u8; 16])> = None;
    for mode in Mode::ALL {
        let Some(prediction) = predicted(neighbours, mode) else {
            continue;
        };
        let sad = sad(&prediction, samples);
        if best.is_none_or(|(choice, _)| sad < choice.sad) {
            best = Some((Choice { mode, sad }, prediction));
        }
    }
    best.expect("the DC mode needs no neighbour")
}

/// Sum of absolute differences.
fn sad(prediction: &[u8; 16], samples: &[u8; 16]) -> u32 {
    prediction
        .iter()
        .zip(samples)
        .map(|(&p, &s)| u32::from(p.abs_diff(s)))
        .sum()
}

/// The prediction, or nothing where a sample that the mode needs is missing.
pub(crate) fn predicted(neighbours: &Neighbours, mode: Mode) -> Option<[u8; 16]> {
    Some(match mode {
        Mode::Vertical => vertical(neighbours.above()?),
        Mode::Horizontal => horizontal(neighbours.left()?),
        Mode::Dc => [dc(neighbours.above(), neighbours.left()); 16],
        Mode::DownLeft => down_left(neighbours.above_eight()?),
        Mode::DownRight => down_right(neighbours.edge()?),
        Mode::VerticalRight => vertical_right(neighbours.edge()?),
        Mode::HorizontalDown => horizontal_down(neighbours.edge()?),
        Mode::VerticalLeft => vertical_left(neighbours.above_eight()?),
        Mode::HorizontalUp => horizontal_up(neighbours.left()?),
    })
}

fn avg2(a: u8, b: u8) -> u8 {
    ((u16::from(a) + u16::from(b) + 1) >> 1) as u8
}

fn avg3(a: u8, b: u8, c: u8) -> u8 {
    ((u16::from(a) + 2 * u16::from(b) + u16::from(c) + 2) >> 2) as u8
}

/// The mean of `line[at]` and the one after it.
fn avg2_at(line: &[u8], at: usize) -> u8 {
    avg2(line[at], line[at + 1])
}

/// The weighted mean of three neighbours on a line, `line[middle]` counting
/// twice.
fn avg3_round(line: &[u8], middle: usize) -> u8 {
    avg3(line[middle - 1], line[middle], line[middle + 1])
}

/// The block that has `sample(x, y)` in column x of row y.
fn block(sample: impl Fn(usize, usize) -> u8) -> [u8; 16] {
    std::array::from_fn(|place| sample(place % 4, place / 4))
}

fn vertical(above: [u8; 4]) -> [u8; 16] {
    block(|x, _| above[x])
}

fn horizontal(left: [u8; 4]) -> [u8; 16] {
    block(|_, y| left[y])
}

/// The one value of the DC mode.
fn dc(above: Option<[u8; 4]>, left: Option<[u8; 4]>) -> u8 {
    let sum = |side: [u8; 4]| side.into_iter().map(u16::from).sum::<u16>();
    let mean = match (above, left) {
        (Some(above), Some(left)) => (sum(above) + sum(left) + 4) / 8,
        (Some(side), None) | (None, Some(side)) => (sum(side) + 2) / 4,
        (None, None) => 128,
    };
    mean as u8
}

fn down_left(above: [u8; 8]) -> [u8; 16] {
    let [.., g, h] = above;
    block(|x, y| match x + y {
        6 => avg3(g, h, h),
        along => avg3_round(&above, along + 1),
    })
}

/// Where M stands on `Neighbours::edge`: one step right of it is A, one step
/// left is I.
const CORNER: usize = 4;

fn down_right(edge: [u8; 9]) -> [u8; 16] {
    block(|x, y| avg3_round(&edge, CORNER + x - y))
}

fn vertical_right(edge: [u8; 9]) -> [u8; 16] {
    block(|x, y| {
        // Twice the distance from the corner at which the sample's direction
        // meets the row above; negative where it meets the left column.
        let z = 2 * x as i32 - y as i32;
        match z {
            0 | 2 | 4 | 6 => avg2_at(&edge, CORNER + x - y / 2),
            -1 | 1 | 3 | 5 => avg3_round(&edge, CORNER + x - y / 2),
            _ => avg3_round(&edge, CORNER + 1 - y),
        }
    })
}

/// Vertical-right mirrored in the diagonal through the corner: the edge is
/// walked the other way, and rows and columns change places.
fn horizontal_down(mut edge: [u8; 9]) -> [u8; 16] {
    edge.reverse();
    let mirrored = vertical_right(edge);
    block(|x, y| mirrored[4 * x + y])
}

fn vertical_left(above: [u8; 8]) -> [u8; 16] {
    block(|x, y| {
        let at = x + y / 2;
        if y % 2 == 0 {
            avg2_at(&above, at)
        } else {
            avg3_round(&above, at + 1)
        }
    })
}

fn horizontal_up(left: [u8; 4]) -> [u8; 16] {
    let [.., k, l] = left;
    block(|x, y| {
        let at = y + x / 2;
        match x + 2 * y {
            0 | 2 | 4 => avg2_at(&left, at),
            1 | 3 => avg3_round(&left, at + 1),
            5 => avg3(k, l, l),
            _ => l,
        }
    })
}
