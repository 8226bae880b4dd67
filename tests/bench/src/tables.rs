//! The tables that are printed, in Markdown, so that documents can have them as they are.

use crate::arguments::{Arguments, Chosen};
#[cfg(study)]
use crate::library::Study;
use crate::library::{Proved, Reference};
use crate::tasks::{better, place, Bench, Times, RATIOS, TASKS};
use crate::{Codec, SAMPLES, SIDE};
use std::borrow::Borrow;
use std::time::Duration;

/// How all tables are measured.
pub fn print_conditions(arguments: &Arguments) {
    println!(
        "{SIDE}x{SIDE} macroblocks, one thread, best of {} runs in turns. The library's buffers are lent again in every run, so \
         their pages are there, and hold what the run before left: it clears the rebuilt and the decoded plane itself, inside its \
         time. A block is 4x4 luma samples; in colour, its chroma is in its time.",
        arguments.rounds
    );
}

pub fn print_header(columns: &[impl Borrow<str>]) {
    println!(
        "\n| {} |\n{}|",
        columns.join(" | "),
        "|---".repeat(columns.len())
    );
}

pub fn print_row(chosen: &Chosen, columns: &[String]) {
    let Chosen { name, qp, .. } = chosen;
    println!("| {name} | {qp} | {} |", columns.join(" | "));
}

pub fn milliseconds(time: Duration) -> String {
    format!("{:.1} ms", 1e3 * time.as_secs_f64())
}

/// Time, nanoseconds a block and Mpixel/s.
pub fn in_full(time: Duration) -> [String; 3] {
    let seconds = time.as_secs_f64();
    [
        milliseconds(time),
        format!("{:.0}", 1e9 * seconds / (SAMPLES / 16) as f64),
        format!("{:.0}", SAMPLES as f64 / seconds / 1e6),
    ]
}

pub fn ratio(one: Duration, other: Duration) -> String {
    format!("{:.2}", one.as_secs_f64() / other.as_secs_f64())
}

/// The library beside the reference, and beside the study where it is linked.
pub fn beside_the_reference(arguments: &Arguments) {
    let others: Vec<Box<dyn Codec>> = vec![
        Box::new(Reference),
        #[cfg(study)]
        Box::new(Study),
    ];
    print_conditions(arguments);
    let columns = ["picture", "QP", "what", "library", "ns a block", "Mpixel/s"];
    let mut columns = columns.map(String::from).to_vec();
    for other in &others {
        columns.extend([other.name().to_string(), format!("to the {}", other.name())]);
    }
    print_header(&columns);
    let mut done = vec![];
    for chosen in &arguments.pictures {
        let mut bench = Bench::new(chosen);
        let (own, theirs) = best_of(arguments.rounds, &mut bench, &others);
        print_tasks(chosen, own, &theirs);
        done.push((chosen, bench.share(), own));
    }
    print_own(&done);
}

/// The library's best times and those of the others.
fn best_of(rounds: usize, bench: &mut Bench, others: &[Box<dyn Codec>]) -> (Times, Vec<Times>) {
    let (mut own, mut theirs) = (Times::default(), vec![Times::default(); others.len()]);
    for _ in 0..rounds {
        for (codec, times) in others.iter().zip(&mut theirs) {
            *times = better(*times, bench.round(codec.as_ref()));
        }
        own = better(own, bench.round(&Proved));
    }
    (own, theirs)
}

fn print_tasks(chosen: &Chosen, own: Times, theirs: &[Times]) {
    for (task, (what, _)) in TASKS.iter().enumerate() {
        let time = own[task].expect("the library does all");
        let mut columns = vec![what.to_string()];
        columns.extend(in_full(time));
        for other in theirs {
            columns.extend(match other[task] {
                Some(other) => [milliseconds(other), ratio(time, other)],
                None => ["-", "-"].map(String::from),
            });
        }
        print_row(chosen, &columns);
    }
}

/// What each picture is made of, and how the library's tasks compare with each other on it.
fn print_own(done: &[(&Chosen, String, Times)]) {
    let pictures = done
        .iter()
        .map(|(chosen, _, _)| format!("{}, QP {}", chosen.name, chosen.qp));
    let headings: Vec<_> = ["of the library".to_string()]
        .into_iter()
        .chain(pictures)
        .collect();
    print_header(&headings);
    let shares: Vec<_> = done.iter().map(|(_, share, _)| share.as_str()).collect();
    println!("| macroblocks that take 16x16 | {} |", shares.join(" | "));
    for (one, other) in RATIOS {
        let ratios = done.iter().map(|(_, _, own)| {
            let [first, second] = [one, other].map(|what| own[place(what)].expect("it does all"));
            ratio(first, second)
        });
        let ratios: Vec<_> = ratios.collect();
        println!("| {one} / {other} | {} |", ratios.join(" | "));
    }
}
