//! Calls of the library through the peer, side by side with the reference.

use crate::functions::{number, Function};
use crate::limits;
use crate::random::Random;
use crate::request::{
    encoded, first_difference, in_short, outcome, outcome_of, word, Argument, Difference, Part,
};
use std::collections::BTreeMap;
use std::io::{self, BufReader, BufWriter, Read, Write};
use std::process::{Child, Command, Stdio};
use std::thread;

/// How often each outcome came, or the first difference. `watch` sees the word and the arguments at exit of each call.
pub fn compare(
    command: &[String],
    function: &Function,
    watch: impl FnMut(u64, &[Argument]),
) -> Result<BTreeMap<u8, usize>, String> {
    let mut peer = Command::new(&command[0])
        .args(&command[1..])
        .stdin(Stdio::piped())
        .stdout(Stdio::piped())
        .spawn()
        .map_err(|error| format!("the peer does not start: {error}"))?;
    let requests = peer.stdin.take().expect("it is piped");
    let answers = peer.stdout.take().expect("it is piped");
    // Both sides make the same inputs from the same seed, so that nothing is kept and neither waits for the other.
    thread::scope(|scope| {
        scope.spawn(move || write_requests(function, requests));
        let seen = check_answers(function, answers, watch);
        ended(&mut peer, seen)
    })
}

/// What the inputs of every function are drawn from.
const SEED: u64 = 0x5EED;

/// Those at the limits first.
fn inputs(function: &Function) -> impl Iterator<Item = Vec<Argument>> + '_ {
    let mut random = Random::new(SEED);
    let limits = limits::of(function.name);
    (0..function.cases).map(move |case| match limits.get(case) {
        Some(limit) => limit.call(&mut random),
        None => (function.make)(&mut random, case),
    })
}

/// A peer that died shows in the answers, so that an error here is no more than the end.
fn write_requests(function: &Function, requests: impl Write) -> io::Result<()> {
    let number = number(function.name);
    let mut requests = BufWriter::with_capacity(1 << 20, requests);
    for arguments in inputs(function) {
        let bytes = encoded(&arguments);
        requests.write_all(&number.to_le_bytes())?;
        requests.write_all(&(bytes.len() as u32).to_le_bytes())?;
        requests.write_all(&bytes)?;
    }
    requests.flush()
}

fn check_answers(
    function: &Function,
    answers: impl Read,
    mut watch: impl FnMut(u64, &[Argument]),
) -> Result<BTreeMap<u8, usize>, String> {
    let mut answers = BufReader::with_capacity(1 << 20, answers);
    let mut seen = BTreeMap::new();
    for (case, lent) in inputs(function).enumerate() {
        let mut arguments = lent.clone();
        let expected = word((function.call)(&mut arguments));
        let left = encoded(&arguments);
        let mut answer = [0; 8];
        let mut bytes = vec![0; left.len()];
        answers
            .read_exact(&mut answer)
            .and_then(|()| answers.read_exact(&mut bytes))
            .map_err(|error| format!("{}no answer: {error}", asked(function, case, &lent)))?;
        let answer = u64::from_le_bytes(answer);
        if answer != expected || bytes != left {
            let what = difference(function, &arguments, (expected, &left), (answer, &bytes));
            return Err(asked(function, case, &lent) + &what);
        }
        *seen
            .entry(outcome_of(expected, function.outcomes))
            .or_insert(0) += 1;
        watch(answer, &arguments);
    }
    Ok(seen)
}

/// The input by its number and its arguments in short.
fn asked(function: &Function, case: usize, lent: &[Argument]) -> String {
    let names = function.inputs.iter().chain(function.outputs);
    let lent = names.zip(lent);
    let lent: Vec<String> = lent
        .map(|(name, argument)| format!("  {name}: {}\n", in_short(argument)))
        .collect();
    let name = function.name;
    format!("input {case} of {name}, seed {SEED:#x}\n{}", lent.concat())
}

/// What is another than it should be: the word, and the first of all arguments at exit.
fn difference(
    function: &Function,
    arguments: &[Argument],
    expected: (u64, &[u8]),
    found: (u64, &[u8]),
) -> String {
    let answer = |word: u64| match (outcome(word as u8), word / 256) {
        (done, value) if word as u8 == 0 => format!("{done} with the value {value}"),
        (refused, place) => format!("{refused} at {place}"),
    };
    let words = match expected.0 == found.0 {
        true => format!("both answer {}", answer(found.0)),
        false => format!(
            "the reference answers {}, the library {}",
            answer(expected.0),
            answer(found.0)
        ),
    };
    let place = match first_difference(arguments, expected.1, found.1) {
        None => "all arguments at exit agree".to_owned(),
        Some(it) => {
            let Difference { ours, theirs, .. } = it;
            let place = place(function, &it);
            format!("at exit {place}: {ours} with the reference, {theirs} with the library")
        }
    };
    format!("{words}; {place}")
}

fn place(function: &Function, difference: &Difference) -> String {
    let names = [function.inputs, function.outputs].concat();
    let name = names[difference.argument];
    let kind = match difference.argument < function.inputs.len() {
        true => "input",
        false => "output",
    };
    match difference.part {
        Part::Number => format!("the {kind} {name} is another"),
        Part::Length => format!("the bytes before the {kind} {name} are others"),
        Part::Element(index) => format!("the {kind} {name} is another at {index}"),
        Part::Behind(byte) => {
            format!("byte {byte} behind the end of the {kind} {name} is another")
        }
    }
}

/// The peer ends with status 0 behind its last request; a difference ends it at once.
fn ended(
    peer: &mut Child,
    seen: Result<BTreeMap<u8, usize>, String>,
) -> Result<BTreeMap<u8, usize>, String> {
    if seen.is_err() {
        // It may have ended by itself already.
        let _ = peer.kill();
    }
    let status = peer
        .wait()
        .map_err(|error| format!("the peer was lost: {error}"))?;
    if seen.is_ok() && !status.success() {
        return Err(format!("the peer ended with {status}"));
    }
    seen
}

#[cfg(test)]
mod tests {
    use super::*;
    use crate::functions::ALL;
    use crate::request::Argument::{Bytes, Number};

    /// Of a call of `fb_choose` that left other bytes: the text that it is told by.
    fn told(change: impl Fn(&mut Vec<u8>)) -> String {
        let function = &ALL[number("fb_choose") as usize];
        let lent = [
            Bytes(vec![1; 13]),
            Number(15),
            Bytes(vec![2; 16]),
            Bytes(vec![3; 16]),
        ];
        let left = encoded(&lent);
        let mut other = left.clone();
        change(&mut other);
        let what = difference(function, &lent, (256, &left), (256, &other));
        asked(function, 77, &lent) + &what
    }

    /// The slices begin with their lengths, at 0, 96 and 184 of the encoding, and 88 is the number between them.
    #[test]
    fn a_difference_names_function_input_area_and_index() {
        for (place, area) in [
            (8 + 4, "the input neighbours is another at 4: 1 with"),
            (
                8 + 13,
                "byte 0 behind the end of the input neighbours is another",
            ),
            (88, "the input flags is another: 15 with"),
            (96 + 8 + 3, "the input samples is another at 3: 2 with"),
            (184 + 7, "the bytes before the output prediction are others"),
            (
                184 + 8 + 15,
                "the output prediction is another at 15: 3 with",
            ),
            (
                184 + 8 + 16,
                "byte 0 behind the end of the output prediction is another",
            ),
            (
                184 + 8 + 79,
                "byte 63 behind the end of the output prediction is another",
            ),
        ] {
            let text = told(|bytes| bytes[place] ^= 1);
            assert!(
                text.starts_with("input 77 of fb_choose, seed 0x5eed\n"),
                "{text}"
            );
            assert!(text.contains(area), "{area}: {text}");
            assert!(text.len() < 1000, "{text}");
        }
    }

    #[test]
    fn words_that_differ_are_told_by_their_names() {
        let function = &ALL[number("fb_decode_plane") as usize];
        let text = difference(function, &[], (13 + 256 * 6, &[]), (9, &[]));
        assert!(text.starts_with("the reference answers SUM at 6, the library FORM at 0;"));
        let text = difference(function, &[], (0, &[]), (6 + 256 * 30, &[]));
        assert!(text
            .starts_with("the reference answers done with the value 0, the library RANGE at 30;"));
    }
}
