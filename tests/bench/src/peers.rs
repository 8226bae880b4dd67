//! x264 and ffmpeg on the same pictures, where they are installed: luma alone, one thread, all frames intra.
//!
//! A process of theirs reads frames of one picture. The time of a picture is what a run of many frames takes longer than a run of few, so
//! that starting and ending do not count; reading the frames does. x264 also codes the entropy, and ffmpeg decodes it, which the library
//! does not: its records hold the levels as they are.

use crate::arguments::{Arguments, Chosen};
use crate::library::Proved;
use crate::tables::{in_full, milliseconds, print_conditions, print_header, print_row, ratio};
use crate::tasks::{Bench, CODING, DECODING};
use crate::SIDE;
use std::fs::{self, File};
use std::io::Write;
use std::path::{Path, PathBuf};
use std::process::{Command, Stdio};
use std::time::{Duration, Instant};

/// Of a picture, in samples.
const WIDTH: usize = 16 * SIDE;

/// Frames of a short run and of a long one.
const FRAMES: [u32; 2] = [2, 12];

/// The settings of its preset ultrafast, but with 4x4 beside 16x16, as the library has them. They are written out on the preset superfast
/// since ultrafast has 16x16 alone in I frames, whatever partitions are asked for. QP is that of P frames, so that I frames have it only at
/// a ratio of 1.
const X264: &str = "x264 --preset superfast --no-8x8dct --aq-mode 0 --b-adapt 0 --bframes 0 --no-cabac --no-deblock --partitions i4x4 \
                    --scenecut 0 --subme 0 --no-weightb --weightp 0 --keyint 1 --ipratio 1 --threads 1 --no-progress \
                    --demuxer raw --input-csp i400 --output-csp i400 --fps 25 --muxer raw";
const FFMPEG: &str = "ffmpeg -nostdin -v error -threads 1 -f h264";

pub fn compare(arguments: &Arguments, folder: &Path) {
    let versions = [("x264", "--version"), ("ffmpeg", "-version")].map(version);
    for version in &versions {
        match version {
            Ok(version) => println!("{version}"),
            Err(name) => println!("{name} is not installed: nothing to compare with"),
        }
    }
    if versions.iter().any(Result::is_err) {
        return;
    }
    fs::create_dir_all(folder).expect("the folder can be made");
    let files = Files::new(folder);
    print_conditions(arguments);
    print_calls(&files.write(&arguments.pictures[0]));
    print_header(&[
        "picture",
        "QP",
        "what",
        "peer",
        "x264's bytes",
        "x264's 4x4",
        "library",
        "ns a block",
        "Mpixel/s",
        "library / peer",
    ]);
    for chosen in &arguments.pictures {
        compare_picture(arguments.rounds, chosen, &files);
    }
    files.remove();
}

/// How the peers are called, and what x264 says of the processor: whether it uses its assembly.
fn print_calls(said: &str) {
    let [short, long] = FRAMES;
    println!(
        "x264 and ffmpeg: a run of {long} frames of the picture less one of {short}, a frame's part of it, best of as many:\n\
         {X264} --input-res {WIDTH}x{WIDTH} --qp QP --frames FRAMES -o /dev/null PICTURE\n\
         {FFMPEG} -i STREAM -f null -\n{}",
        line_with("cpu capabilities", said)
    );
}

/// The first line that a program says of its version, or its name where it is not installed.
fn version((name, word): (&str, &str)) -> Result<String, String> {
    let said = Command::new(name)
        .arg(word)
        .output()
        .map_err(|_| name.to_string())?;
    let said = String::from_utf8_lossy(&said.stdout);
    Ok(said.lines().next().unwrap_or(name).to_string())
}

/// A command of words between blanks.
fn command(words: &str) -> Command {
    let mut words = words.split_whitespace();
    let mut command = Command::new(words.next().expect("it has a name"));
    command.args(words);
    command
}

/// What the peers read and write.
struct Files {
    /// The frames of a long run.
    picture: PathBuf,
    /// x264's streams of a short and of a long run.
    streams: [PathBuf; 2],
}

impl Files {
    fn new(folder: &Path) -> Files {
        Files {
            picture: folder.join("picture.gray"),
            streams: FRAMES.map(|frames| folder.join(format!("{frames}.264"))),
        }
    }

    /// Writes the frames, and x264's streams of them; answers what x264 says of the longer one.
    fn write(&self, chosen: &Chosen) -> String {
        let plane = (chosen.draw)();
        let mut file = File::create(&self.picture).expect("the folder can be written");
        for _ in 0..FRAMES[1] {
            file.write_all(&plane).expect("there is room");
        }
        drop(file);
        let [_, said] = [0, 1].map(|run| {
            let (_, said) = done(&mut self.x264(chosen, FRAMES[run], &self.streams[run]));
            said
        });
        said
    }

    /// The bytes of a frame in x264's streams.
    fn bytes_of_a_frame(&self) -> u64 {
        let [short, long] = self.streams.each_ref().map(|stream| {
            let stream = fs::metadata(stream);
            stream.expect("x264 has written it").len()
        });
        (long - short) / u64::from(FRAMES[1] - FRAMES[0])
    }

    fn x264(&self, chosen: &Chosen, frames: u32, out: &Path) -> Command {
        let (qp, width) = (chosen.qp, WIDTH);
        let mut command = command(&format!(
            "{X264} --input-res {width}x{width} --qp {qp} --frames {frames} -o"
        ));
        command.args([out, &self.picture]);
        command
    }

    fn ffmpeg(&self, run: usize) -> Command {
        let mut command = command(FFMPEG);
        command.arg("-i").arg(&self.streams[run]);
        command.args(["-f", "null", "-"]);
        command
    }

    fn remove(&self) {
        for file in self.streams.iter().chain([&self.picture]) {
            fs::remove_file(file).expect("it was written here");
        }
    }
}

/// Runs a command that must succeed; answers its time and what it says.
fn done(command: &mut Command) -> (Duration, String) {
    let started = Instant::now();
    let output = command.stdin(Stdio::null()).output();
    let time = started.elapsed();
    let output = output.expect("it is installed");
    let said = String::from_utf8_lossy(&output.stderr).to_string();
    assert!(output.status.success(), "{command:?} has failed: {said}");
    (time, said)
}

/// The first line that has these words.
fn line_with<'said>(words: &str, said: &'said str) -> &'said str {
    let mut lines = said.lines().filter(|line| line.contains(words));
    lines.next().unwrap_or("")
}

/// How many macroblocks x264 predicts in blocks of 4x4: it says the shares of 16x16, of 8x8 and of 4x4.
fn share_of_four(said: &str) -> &str {
    let line = line_with("mb I  I16..4:", said);
    line.split_whitespace().last().unwrap_or("-")
}

/// The best times of short and long runs.
struct Runs([Duration; 2]);

impl Runs {
    fn new() -> Runs {
        Runs([Duration::MAX; 2])
    }

    fn add(&mut self, mut command: impl FnMut(usize) -> Command) {
        for (run, best) in self.0.iter_mut().enumerate() {
            *best = done(&mut command(run)).0.min(*best);
        }
    }

    /// A frame's part of the difference.
    fn of_a_frame(&self) -> Duration {
        self.0[1].saturating_sub(self.0[0]) / (FRAMES[1] - FRAMES[0])
    }
}

fn compare_picture(rounds: usize, chosen: &Chosen, files: &Files) {
    let said = files.write(chosen);
    let stream = [
        files.bytes_of_a_frame().to_string(),
        share_of_four(&said).to_string(),
    ];
    let mut bench = Bench::new(chosen);
    let mut peers = [Runs::new(), Runs::new()];
    let mut own = [Duration::MAX; 2];
    for _ in 0..rounds {
        for (what, best) in [CODING, DECODING].into_iter().zip(&mut own) {
            let time = bench.time(what, &Proved).expect("the library does all");
            *best = time.min(*best);
        }
        peers[0].add(|run| files.x264(chosen, FRAMES[run], Path::new("/dev/null")));
        peers[1].add(|run| files.ffmpeg(run));
    }
    let names = ["coding: x264", "decoding: ffmpeg"];
    for (task, name) in names.into_iter().enumerate() {
        let peer = peers[task].of_a_frame();
        let mut columns = vec![name.to_string(), milliseconds(peer)];
        columns.extend(stream.clone());
        columns.extend(in_full(own[task]));
        columns.push(ratio(own[task], peer));
        print_row(chosen, &columns);
    }
}
