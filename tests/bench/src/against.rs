//! Two libraries in one sitting. Each has a process of its own, this program linked with it, since both have the same names. They time
//! their rounds in turns, and while one does, the other waits. Both must make what this checkout's reference makes.

use crate::arguments::{Arguments, Chosen};
use crate::library::Proved;
use crate::tables::{in_full, milliseconds, print_conditions, print_header, print_row, ratio};
use crate::tasks::{better, Bench, Times, TASKS};
use std::io::{stdin, BufRead, BufReader, Write};
use std::path::Path;
use std::process::{Child, ChildStdin, ChildStdout, Command, Stdio};
use std::time::Duration;

/// Said by a process that has drawn its picture and made its files.
const READY: &str = "ready";

/// For the process that compares: a line of nanoseconds, task by task, for every line that comes, until they end.
pub fn answer_rounds(arguments: &Arguments) {
    let chosen = arguments.pictures.first().expect("there is a picture");
    let mut bench = Bench::new(chosen);
    println!("{READY}");
    for line in stdin().lines() {
        line.expect("lines can be read");
        let times = bench.round(&Proved).map(|time| {
            let time = time.expect("the library does all");
            time.as_nanos().to_string()
        });
        println!("{}", times.join(" "));
    }
}

/// A process that is prepared for a picture and times a round when it is asked to.
struct Timer {
    process: Child,
    asks: ChildStdin,
    answers: BufReader<ChildStdout>,
}

impl Timer {
    fn new(program: &Path, chosen: &Chosen) -> Timer {
        let mut process = Command::new(program)
            .args(["--answer-rounds", "--picture", chosen.name, "--qp"])
            .arg(chosen.qp.to_string())
            .stdin(Stdio::piped())
            .stdout(Stdio::piped())
            .spawn()
            .expect("the program of a library can be started");
        let pipes = (process.stdin.take(), process.stdout.take());
        let (Some(asks), Some(answers)) = pipes else {
            unreachable!("both are pipes")
        };
        let answers = BufReader::new(answers);
        let mut timer = Timer {
            process,
            asks,
            answers,
        };
        assert_eq!(timer.line(), READY);
        timer
    }

    /// The next line that the process prints. Where it has ended, it has said why.
    fn line(&mut self) -> String {
        let mut line = String::new();
        let bytes = self.answers.read_line(&mut line).expect("it is text");
        assert!(bytes > 0, "the program of a library has ended");
        line.trim_end().to_string()
    }

    fn round(&mut self) -> Times {
        writeln!(self.asks, "round").expect("the program of a library listens");
        let line = self.line();
        let mut times = line.split(' ').map(|word| {
            let nanoseconds = word.parse().expect("it is a number");
            Duration::from_nanos(nanoseconds)
        });
        std::array::from_fn(|_| times.next())
    }

    /// Without questions the process ends by itself.
    fn end(mut self) {
        drop(self.asks);
        let status = self.process.wait().expect("it was started");
        assert!(status.success(), "the program of a library has failed");
    }
}

/// This program's library (after) beside that of the other program (before).
pub fn compare(arguments: &Arguments, other: &Path) {
    let own = std::env::current_exe().expect("this program has a path");
    print_conditions(arguments);
    print_header(&[
        "picture",
        "QP",
        "what",
        "before",
        "after",
        "ns a block",
        "Mpixel/s",
        "after / before",
    ]);
    for chosen in &arguments.pictures {
        let [before, after] = best_of(arguments.rounds, [other, &own], chosen);
        for (task, (what, _)) in TASKS.iter().enumerate() {
            let [before, after] = [before, after].map(|times| times[task].expect("all are timed"));
            let mut columns = vec![what.to_string(), milliseconds(before)];
            columns.extend(in_full(after));
            columns.push(ratio(after, before));
            print_row(chosen, &columns);
        }
    }
}

/// The best times of two programs, which take turns in being the first of a round.
fn best_of(rounds: usize, programs: [&Path; 2], chosen: &Chosen) -> [Times; 2] {
    let mut timers = programs.map(|program| Timer::new(program, chosen));
    let mut best = [Times::default(); 2];
    for round in 0..rounds {
        for turn in [round % 2, (round + 1) % 2] {
            best[turn] = better(best[turn], timers[turn].round());
        }
    }
    timers.into_iter().for_each(Timer::end);
    best
}
