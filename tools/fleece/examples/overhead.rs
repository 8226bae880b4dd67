//! `overhead FLEECE FOLDER`: what the command costs beside the library's own call, on a picture of 2048 x 2048. The library is lent areas whose
//! pages are there; the command is a process of its own, from its start to its end, that reads and writes files in FOLDER. They are run in
//! turns. Ends with status 1 if a ratio of processor times is above 1.5: those count what was done, also where other programs have the
//! machine too. The best times by the clock are told beside them, also where the command replaces a file of the run before, since a file system
//! may wait for the disk then (ext4 does).

use fleecebutton::{code_plane_into, decode_plane_into, Layout};
use std::path::Path;
use std::process::{Command, ExitCode};
use std::time::{Duration, Instant};
use std::{env, fs};

const LAYOUT: Layout = Layout::one_slice(128, 128);
const QP: u8 = 28;
const MOST: f64 = 1.5;
/// Enough for processor times, which are told in hundredths of a second.
const TURNS: usize = 4;
const RUNS: usize = 5;

/// What one side of a comparison took: the best run by the clock, and all runs by the processor, in ticks.
struct Taken {
    best: Duration,
    ticks: u64,
}

fn main() -> ExitCode {
    let words: Vec<String> = env::args().skip(1).collect();
    let [fleece, folder] = words.as_slice() else {
        eprintln!("overhead FLEECE FOLDER");
        return ExitCode::from(2);
    };
    let plane = busy();
    let folder = Path::new(folder);
    fs::create_dir_all(folder).expect("the folder can be made");
    fs::write(folder.join("in.pgm"), [b"P5\n2048 2048\n255\n".as_slice(), &plane].concat()).expect("the picture can be written");
    let (mut file, mut rebuilt) = (vec![1; LAYOUT.file_area()], vec![1; LAYOUT.samples()]);
    let mut used = 0;
    let coding = compared(
        || used = code_plane_into(LAYOUT, QP, &plane, &mut file, &mut rebuilt).expect("the sizes are right"),
        &Run { fleece, folder, words: &["code", "in.pgm", "out.fb"] },
    );
    assert!(fs::read(folder.join("out.fb")).expect("it was written") == file[..used], "the command codes otherwise");
    let decoding = compared(
        || decode_plane_into(&file[..used], &mut rebuilt).expect("it was coded"),
        &Run { fleece, folder, words: &["decode", "out.fb", "back.pgm"] },
    );
    let within = [told("code", coding), told("decode", decoding)];
    ExitCode::from(u8::from(within.contains(&false)))
}

/// A command, whose last word is its output.
struct Run<'a> {
    fleece: &'a str,
    folder: &'a Path,
    words: &'a [&'a str],
}

impl Run<'_> {
    fn start(&self) {
        let status = Command::new(self.fleece).current_dir(self.folder).args(self.words).status();
        assert!(status.expect("the command can be started").success());
    }

    fn remove_output(&self) {
        if let Some(output) = self.words.last() {
            let _ = fs::remove_file(self.folder.join(output));
        }
    }
}

/// The library's call, the command with a new output, and the command with one that it replaces, in turns.
fn compared(mut library: impl FnMut(), run: &Run) -> [Taken; 3] {
    let mut taken = [(), (), ()].map(|()| Taken { best: Duration::MAX, ticks: 0 });
    // once before, so that files and pages are there
    library();
    run.start();
    for _ in 0..TURNS {
        taken[0].add(|| (), &mut library);
        taken[1].add(|| run.remove_output(), || run.start());
        // the first output that is replaced has not been on its way to the disk yet, and is not counted
        run.start();
        taken[2].add(|| (), || run.start());
    }
    taken
}

impl Taken {
    /// Several times the work, each behind what prepares it and is not counted by the clock.
    fn add(&mut self, prepare: impl Fn(), mut work: impl FnMut()) {
        let ticks = self::ticks();
        for _ in 0..RUNS {
            prepare();
            let started = Instant::now();
            work();
            self.best = started.elapsed().min(self.best);
        }
        self.ticks += self::ticks() - ticks;
    }

    fn clock(&self) -> f64 {
        1e3 * self.best.as_secs_f64()
    }

    fn processor(&self) -> f64 {
        10.0 * self.ticks as f64 / (TURNS * RUNS) as f64
    }
}

/// The processor's time of this process and of those that it has waited for.
fn ticks() -> u64 {
    let text = fs::read_to_string("/proc/self/stat").expect("it is Linux");
    // behind the name, which stands in brackets, the times are the 12th to the 15th
    let fields = text.rsplit(')').next().into_iter().flat_map(str::split_whitespace);
    fields.skip(11).take(4).map(|field| field.parse::<u64>().expect("it is a number")).sum()
}

/// Whether it is within what is allowed.
fn told(what: &str, [library, new, replaced]: [Taken; 3]) -> bool {
    let ratio = new.processor() / library.processor();
    let (own, clock, again) = (library.clock(), new.clock(), replaced.clock());
    println!(
        "{what:<6} 2048 x 2048: by the processor fleece {:.1} ms, the library's call {:.1} ms, ratio {ratio:.2}; by the clock, best of {}, {clock:.1} \
         and {own:.1} ms, ratio {:.2} ({again:.1} ms, {:.2}, where a file is replaced)",
        new.processor(),
        library.processor(),
        TURNS * RUNS,
        clock / own,
        again / own
    );
    ratio <= MOST
}

/// Slopes, edges and noise, different from macroblock to macroblock, so that the library has work everywhere.
fn busy() -> Vec<u8> {
    let mut state = 0x5EEDu32;
    let sample = |place: usize| {
        let (x, y) = (place % 2048, place / 2048);
        state = state.wrapping_mul(1664525).wrapping_add(1013904223);
        ((x / 48 % 5) * x + (y / 48 % 7) * y + x * y / 512 + (state >> 29) as usize) as u8
    };
    (0..LAYOUT.samples()).map(sample).collect()
}
