//! The layout of a recording: differences from frame to frame, where a frame holds a request and what is expected of it.

use crate::request::BEFORE;
use crate::Function;
use reference::calls::{word, Argument};
use std::ops::Range;

/// The parts of a frame. `crates/vectors/src/frame.rt` has the same.
const VALUES: Range<usize> = 0..48;
const WORD: Range<usize> = 48..56;
const LENGTHS: Range<usize> = 56..74;
const LIST: Range<usize> = 74..142;
const MADE: Range<usize> = 142..210;
const SECOND: Range<usize> = 210..4306;
const THIRD: Range<usize> = 4306..5330;
const FIRST: Range<usize> = 5330..18012;
const OUT: Range<usize> = 18012..30694;
const MORE: Range<usize> = 30694..34790;
const EXTRA: Range<usize> = 34790..35814;
const LAST: Range<usize> = 35814..36838;
const END: usize = 36838;

/// The rooms of the bytes lent, and of the bytes expected, each with the number of its length.
const BYTES_LENT: [(usize, Range<usize>); 3] = [(0, FIRST), (1, SECOND), (2, THIRD)];
const NUMBERS_LENT: [(usize, Range<usize>); 1] = [(3, LIST)];
const NUMBERS_OUT: [(usize, Range<usize>); 1] = [(4, MADE)];
const BYTES_OUT: [(usize, Range<usize>); 4] = [(5, OUT), (6, MORE), (7, EXTRA), (8, LAST)];

/// All requests of a function, in steps.
pub fn recording(function: &Function) -> Vec<u8> {
    let mut frame = vec![BEFORE; END];
    let mut steps = Vec::new();
    for lent in (function.requests)() {
        let next = asked(function, &lent, &frame);
        steps.extend(differences(&frame, &next));
        steps.push([0; 4].to_vec());
        frame = next;
    }
    [(steps.len() as u32).to_le_bytes().to_vec(), steps.concat()].concat()
}

/// The frame of a request. What no argument of it fills stays as it stood in the frame before; behind an output stands what the
/// program's room holds there.
fn asked(function: &Function, lent: &[Argument], before: &[u8]) -> Vec<u8> {
    let mut left = lent.to_vec();
    let word = word((function.call)(&mut left));
    let (inputs, outputs) = left.split_at(lent.len() - function.outputs);
    assert_eq!(inputs, &lent[..inputs.len()], "an input is changed");

    let mut frame = before.to_vec();
    frame[WORD].copy_from_slice(&word.to_le_bytes());
    let mut values = VALUES.step_by(8);
    let [mut bytes, mut numbers] = [BYTES_LENT.iter(), NUMBERS_LENT.iter()];
    for argument in inputs {
        match argument {
            Argument::Number(number) => {
                let at = values.next().expect("there is room for six");
                frame[at..at + 8].copy_from_slice(&number.to_le_bytes());
            }
            argument => put(&mut frame, argument, &mut bytes, &mut numbers),
        }
    }
    for room in [MADE, OUT, MORE, EXTRA, LAST] {
        frame[room].fill(BEFORE);
    }
    let [mut bytes, mut numbers] = [BYTES_OUT.iter(), NUMBERS_OUT.iter()];
    for argument in outputs {
        put(&mut frame, argument, &mut bytes, &mut numbers);
    }
    frame
}

type Rooms<'a> = std::slice::Iter<'a, (usize, Range<usize>)>;

/// A slice and its length into the next room of its kind.
fn put(frame: &mut [u8], slice: &Argument, bytes: &mut Rooms, numbers: &mut Rooms) {
    let (room, length, content) = match slice {
        Argument::Bytes(slice) => (bytes.next(), slice.len(), slice.clone()),
        Argument::Numbers(slice) => {
            let content = slice.iter().flat_map(|number| number.to_le_bytes());
            (numbers.next(), slice.len(), content.collect())
        }
        _ => panic!("no room in a frame"),
    };
    let (number, room) = room.expect("there is room for it").clone();
    let at = LENGTHS.start + 2 * number;
    frame[at..at + 2].copy_from_slice(&(length as u16).to_le_bytes());
    frame[room][..content.len()].copy_from_slice(&content);
}

/// Steps that make one frame of another: place, count and bytes. What lies between two differences goes along where that is
/// shorter than a step's head.
fn differences(from: &[u8], to: &[u8]) -> Vec<Vec<u8>> {
    let mut ranges: Vec<Range<usize>> = Vec::new();
    for place in (0..END).filter(|&place| from[place] != to[place]) {
        match ranges.last_mut() {
            Some(last) if place - last.end < 4 => last.end = place + 1,
            _ => ranges.push(place..place + 1),
        }
    }
    let step = |range: Range<usize>| {
        let head = [range.start, range.len()].map(|number| (number as u16).to_le_bytes());
        [head.as_flattened(), &to[range]].concat()
    };
    ranges.into_iter().map(step).collect()
}

#[cfg(test)]
mod tests {
    use super::*;
    use crate::request::{held, held_numbers};
    use reference::calls;
    use reference::calls::Argument::{Bytes, Number};

    /// The frames whose requests a recording asks.
    fn replayed(recording: &[u8]) -> Vec<Vec<u8>> {
        let number =
            |at: usize| usize::from(u16::from_le_bytes([recording[at], recording[at + 1]]));
        let steps = number(0) + 65536 * number(2);
        let (mut at, mut frame, mut frames) = (4, vec![BEFORE; END], Vec::new());
        for _ in 0..steps {
            let (place, count) = (number(at), number(at + 2));
            at += 4;
            frame[place..place + count].copy_from_slice(&recording[at..at + count]);
            at += count;
            if count == 0 {
                frames.push(frame.clone());
            }
        }
        assert_eq!(at, recording.len());
        frames
    }

    /// The paper's example for `blockprint`, and the same with QP 52.
    #[test]
    fn frames_by_hand() {
        let requests = || {
            let of = |qp| {
                let (neighbours, samples) = (Bytes(vec![77; 13]), Bytes(vec![138; 16]));
                let outputs = [held_numbers(16), held(16)];
                let lent = [Number(qp), Number(0), neighbours, samples];
                [lent.as_slice(), &outputs].concat()
            };
            vec![of(28), of(52)]
        };
        let function = crate::function("by hand", 2, calls::code_block, requests);
        let frames = replayed(&recording(&function));
        let mut expected = vec![BEFORE; END];
        expected[..16].copy_from_slice(&[28, 0, 0, 0, 0, 0, 0, 0, 0, 0, 0, 0, 0, 0, 0, 0]);
        expected[WORD].copy_from_slice(&(256 * (2 + 16 * 160_u64)).to_le_bytes());
        let lengths = [13, 16, 0x5A5A, 0x5A5A, 16, 16, 0x5A5A, 0x5A5A, 0x5A5A];
        let lengths = lengths.map(u16::to_le_bytes);
        expected[LENGTHS].copy_from_slice(lengths.as_flattened());
        expected[FIRST][..13].fill(77);
        expected[SECOND][..16].fill(138);
        expected[MADE][..64].fill(0);
        expected[MADE][0] = 2;
        expected[OUT][..16].fill(136);
        assert_eq!(frames[0], expected);

        expected[0] = 52;
        expected[WORD].copy_from_slice(&[2, 0, 0, 0, 0, 0, 0, 0]);
        expected[MADE].fill(BEFORE);
        expected[OUT].fill(BEFORE);
        assert_eq!(frames[1], expected);
    }
}
