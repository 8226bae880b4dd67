//! What the requests of several functions are made of.

use reference::calls::Argument::{self, Bytes, Number, Numbers};

/// What every byte of an output holds before the call.
pub const BEFORE: u8 = 90;

/// An output of bytes.
pub fn held(length: usize) -> Argument {
    Bytes(vec![BEFORE; length])
}

/// An output of numbers.
pub fn held_numbers(length: usize) -> Argument {
    Numbers(vec![i32::from_le_bytes([BEFORE; 4]); length])
}

/// A request with another argument in a place.
pub fn with(good: &[Argument], place: usize, argument: Argument) -> Vec<Argument> {
    let mut request = good.to_vec();
    request[place] = argument;
    request
}

/// A request with each of these numbers in a place.
pub fn with_each(good: &[Argument], place: usize, numbers: &[i64]) -> Vec<Vec<Argument>> {
    let one = |&number: &i64| with(good, place, Number(number));
    numbers.iter().map(one).collect()
}

/// A request with each of its slices one element short, one long, and empty.
pub fn wrong_lengths(good: &[Argument]) -> Vec<Vec<Argument>> {
    let wrong = |slice: &Argument| match slice {
        Bytes(slice) => resized(slice).map(Bytes).to_vec(),
        Numbers(slice) => resized(slice).map(Numbers).to_vec(),
        _ => vec![],
    };
    let of = |(place, slice)| wrong(slice).into_iter().map(move |slice| (place, slice));
    let each = good.iter().enumerate().flat_map(of);
    each.map(|(place, slice)| with(good, place, slice))
        .collect()
}

fn resized<T: Copy>(slice: &[T]) -> [Vec<T>; 3] {
    let (last, length) = (slice[slice.len() - 1], slice.len());
    [length - 1, length + 1, 0].map(|length| {
        let mut other = slice.to_vec();
        other.resize(length, last);
        other
    })
}

/// A number among zeros.
pub fn alone(count: usize, place: usize, number: i32) -> Argument {
    let mut list = vec![0; count];
    list[place] = number;
    Numbers(list)
}

/// A request with each of these numbers in each place of a list, among zeros.
pub fn everywhere(
    good: &[Argument],
    list: usize,
    count: usize,
    numbers: &[i32],
) -> Vec<Vec<Argument>> {
    let at = |place| {
        let one = move |&number: &i32| with(good, list, alone(count, place, number));
        numbers.iter().map(one)
    };
    (0..count).flat_map(at).collect()
}
