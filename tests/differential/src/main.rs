//! Compares every exported function of the proved library with the reference on many inputs, and measures how far rebuilt samples
//! are off. The library runs in a process of its own, `tests/peer`, since it is x86-64 code and this program runs on any processor.
//!
//! differential COMMAND..: the command runs the peer.

mod blocks;
mod colour;
mod distances;
mod files;
mod functions;
mod inspection_kinds;
mod inspections;
mod kinds;
mod limits;
mod named;
mod peer;
mod picture_kinds;
mod pictures;
mod planes;
mod random;
mod reasons;
mod request;
mod sheets;
mod sizes;

use std::collections::BTreeMap;
use std::env;
use std::process::ExitCode;
use std::time::Instant;

fn main() -> ExitCode {
    let command: Vec<String> = env::args().skip(1).collect();
    if command.is_empty() {
        eprintln!("differential COMMAND..: the command runs tests/peer");
        return ExitCode::from(2);
    }
    let started = Instant::now();
    for function in &functions::ALL {
        match compared(&command, function) {
            Ok(line) => println!("{}: {line}", function.name),
            Err(difference) => {
                println!("{}: {difference}", function.name);
                return ExitCode::FAILURE;
            }
        }
    }
    match distances::table(&command) {
        Ok(table) => print!("{table}"),
        Err(fault) => {
            println!("distances: {fault}");
            return ExitCode::FAILURE;
        }
    }
    println!(
        "differential: {} functions agree with the reference, and no distance is above its promise, {:.0} s",
        functions::ALL.len(),
        started.elapsed().as_secs_f64()
    );
    ExitCode::SUCCESS
}

/// What came, as text; a difference, or what has not come.
fn compared(command: &[String], function: &functions::Function) -> Result<String, String> {
    let mut kinds = BTreeMap::new();
    let outcomes = peer::compare(command, function, |word, arguments| {
        for kind in kinds::of(function.name, word, arguments) {
            *kinds.entry(kind).or_insert(0) += 1;
        }
    })?;
    Ok(all_seen(function, &outcomes)? + &all_kinds_seen(function, &kinds)?)
}

/// How often each outcome came, as text; an outcome that never came is a hole in the inputs.
fn all_seen(function: &functions::Function, seen: &BTreeMap<u8, usize>) -> Result<String, String> {
    if let Some(number) = function
        .outcomes
        .iter()
        .find(|number| !seen.contains_key(number))
    {
        return Err(format!("no input of these came to the outcome {number}"));
    }
    let total: usize = seen.values().sum();
    let counts: Vec<String> = seen
        .iter()
        .map(|(number, count)| format!("{count} {}", request::outcome(*number)))
        .collect();
    Ok(format!("{total} inputs, {}", counts.join(", ")))
}

/// How many kinds of cases must come and how often the rarest came, as text; one that never came is a hole in the inputs.
fn all_kinds_seen(
    function: &functions::Function,
    seen: &BTreeMap<String, usize>,
) -> Result<String, String> {
    let required = kinds::required(function.name);
    let counts = required.iter().map(|kind| {
        let count = seen.get(kind).copied().unwrap_or(0);
        (count, kind)
    });
    match counts.min() {
        None => Ok(String::new()),
        Some((0, kind)) => Err(format!("no input of these was of the kind: {kind}")),
        Some((count, kind)) => Ok(format!(
            "; all of {} kinds of cases, the rarest {count} times ({kind}){}",
            required.len(),
            each_counted(function, seen)
        )),
    }
}

/// How often each of those came that are counted by themselves, as text.
fn each_counted(function: &functions::Function, seen: &BTreeMap<String, usize>) -> String {
    let counted = kinds::counted(function.name).iter();
    let counts: Vec<String> = counted
        .map(|&kind| format!("{} {kind}", seen.get(kind).copied().unwrap_or(0)))
        .collect();
    match counts.is_empty() {
        true => String::new(),
        false => format!("; of what is broken in a file {}", counts.join(", ")),
    }
}
