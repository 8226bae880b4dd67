//! What the tests of planes and of colour pictures share: refusals as the papers
//! number them, and the files of outside.

use std::fs;
use std::path::{Path, PathBuf};

use reference::Refusal;

pub const LENGTH: Refusal = refusal(1, 0);
pub const SIZE: Refusal = refusal(8, 0);

pub const fn refusal(number: u8, place: usize) -> Refusal {
    Refusal {
        number,
        place: place as u64,
    }
}

pub const fn form(place: usize) -> Refusal {
    refusal(9, place)
}

pub const fn wrong_mark(place: usize) -> Refusal {
    refusal(11, place)
}

pub const fn wrong_number(place: usize) -> Refusal {
    refusal(12, place)
}

pub const fn wrong_sum(place: usize) -> Refusal {
    refusal(13, place)
}

/// What outputs hold before a call.
pub const UNTOUCHED: u8 = 0x5A;

fn directory() -> PathBuf {
    Path::new(env!("CARGO_MANIFEST_DIR")).join("../outside")
}

pub fn data(name: &str) -> Vec<u8> {
    fs::read(directory().join(name)).unwrap_or_else(|error| panic!("{name}: {error}"))
}

/// The names of the outside files of a kind: in a folder of `tests/outside`,
/// without the kind.
pub fn names(folder: &str, kind: &str) -> Vec<String> {
    let files = fs::read_dir(directory().join(folder)).expect("the folder is there");
    let files = files.map(|file| file.expect("it can be read").file_name());
    let files = files.filter_map(|file| file.into_string().ok());
    files
        .filter_map(|file| Some(format!("{folder}/{}", file.strip_suffix(kind)?)))
        .collect()
}
