//! What the tests of the command share.
#![allow(dead_code)]

use fleecebutton::{code_picture, code_plane, Coding, Layout, Planes, Records};
use std::ffi::OsStr;
use std::fs;
use std::io::Write;
use std::path::{Path, PathBuf};
use std::process::{Command, Output, Stdio};

/// A folder of a test's own, empty.
pub fn folder(name: &str) -> PathBuf {
    let folder = Path::new(env!("CARGO_TARGET_TMPDIR")).join(name);
    let _ = fs::remove_dir_all(&folder);
    fs::create_dir_all(&folder).unwrap();
    folder
}

/// What a run of the command left.
pub struct Run {
    pub status: Option<i32>,
    pub output: Vec<u8>,
    pub errors: String,
}

impl Run {
    fn of(output: Output) -> Run {
        let errors = String::from_utf8_lossy(&output.stderr).into_owned();
        assert!(!errors.contains("panicked"), "{errors}");
        Run { status: output.status.code(), output: output.stdout, errors }
    }

    pub fn text(&self) -> String {
        String::from_utf8_lossy(&self.output).into_owned()
    }

    /// It was done, and nothing was said.
    pub fn done(self) -> Run {
        assert_eq!((self.status, self.errors.as_str()), (Some(0), ""));
        self
    }

    /// It ended with this status, nothing on standard output, and one line with these words.
    pub fn told(self, status: i32, words: &str) {
        assert!(self.errors.contains(words), "{:?} does not say: {words}", self.errors);
        assert!(
            self.errors.starts_with("fleece: ") && self.errors.ends_with('\n') && self.errors.lines().count() == 1,
            "{:?}",
            self.errors
        );
        assert_eq!((self.status, self.output.len()), (Some(status), 0), "{}", self.errors);
    }
}

/// The command in a folder.
pub fn command<S: AsRef<OsStr>>(folder: &Path, words: &[S]) -> Command {
    let mut command = Command::new(env!("CARGO_BIN_EXE_fleece"));
    command.current_dir(folder).args(words).stdin(Stdio::null());
    command
}

pub fn fleece<S: AsRef<OsStr>>(folder: &Path, words: &[S]) -> Run {
    Run::of(command(folder, words).output().unwrap())
}

/// The same with something on standard input.
pub fn fed<S: AsRef<OsStr>>(folder: &Path, words: &[S], input: &[u8]) -> Run {
    let mut child = command(folder, words).stdin(Stdio::piped()).stdout(Stdio::piped()).stderr(Stdio::piped()).spawn().unwrap();
    let mut pipe = child.stdin.take().unwrap();
    let input = input.to_vec();
    let feeding = std::thread::spawn(move || {
        // a command that refuses its words does not read on
        let _ = pipe.write_all(&input);
    });
    let output = child.wait_with_output().unwrap();
    feeding.join().unwrap();
    Run::of(output)
}

/// The names in a folder, in order.
pub fn names(folder: &Path) -> Vec<String> {
    let mut names: Vec<String> = fs::read_dir(folder).unwrap().map(|it| it.unwrap().file_name().to_string_lossy().into_owned()).collect();
    names.sort();
    names
}

/// Numbers below a count, the same in every run.
pub fn noise(seed: u32) -> impl FnMut(u32) -> u32 {
    let mut state = 0x5EED ^ seed;
    move |count| {
        state = state.wrapping_mul(1664525).wrapping_add(1013904223);
        ((u64::from(state >> 8) * u64::from(count)) >> 24) as u32
    }
}

pub fn busy(samples: usize, seed: u32) -> Vec<u8> {
    let mut random = noise(seed);
    (0..samples).map(|_| random(256) as u8).collect()
}

/// A picture with its mark.
pub fn netpbm(mark: &str, width: usize, height: usize, samples: &[u8]) -> Vec<u8> {
    [format!("{mark}\n{width} {height}\n255\n").as_bytes(), samples].concat()
}

/// A busy PGM.
pub fn pgm(width: usize, height: usize) -> Vec<u8> {
    netpbm("P5", width, height, &busy(width * height, 1))
}

/// A busy PPM.
pub fn ppm(width: usize, height: usize) -> Vec<u8> {
    netpbm("P6", width, height, &busy(3 * width * height, 2))
}

/// The samples of a picture that the command wrote.
pub fn samples(picture: &[u8]) -> &[u8] {
    let lines = picture.iter().enumerate().filter(|(_, byte)| **byte == b'\n');
    let (end, _) = lines.take(3).last().unwrap();
    &picture[end + 1..]
}

/// A mono file of so many macroblocks, all of 4x4.
pub fn mono(width: usize, height: usize) -> Vec<u8> {
    let layout = Layout::one_slice(width, height);
    code_plane(layout, 28, &busy(layout.samples(), 1)).unwrap().file
}

/// A colour file of so many macroblocks, all of 4x4.
pub fn colour(width: usize, height: usize) -> Vec<u8> {
    let layout = Layout::one_slice(width, height);
    let [luma, cb, cr] = [layout.samples(), layout.chroma_samples(), layout.chroma_samples()].map(|samples| busy(samples, 3));
    let coding = Coding { layout, qp: 28, cb_offset: 0, cr_offset: 0 };
    code_picture(coding, Planes { luma: &luma, cb: &cb, cr: &cr }).unwrap().file
}

/// Gives every whole record the sum of its bytes, so that its content is looked at.
pub fn resummed(mut file: Vec<u8>) -> Vec<u8> {
    let found: Vec<(usize, usize)> = Records::of(&file).map(|record| (record.place(), record.bytes().len())).collect();
    for (place, length) in found {
        let record = &mut file[place..place + length];
        let sum = record[..length - 2].iter().fold(0u16, |sum, byte| sum.wrapping_add(u16::from(*byte)));
        record[length - 2..].copy_from_slice(&sum.to_be_bytes());
    }
    file
}
