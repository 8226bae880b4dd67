//! Files that have names and must be among the cases, each with the number and the place of the word that it must come to: these are told
//! by the fields of a file, and not by the reference.

use crate::{colour, limits, sizes};
use reference::record::Layout;
use std::collections::HashMap;
use std::sync::OnceLock;

/// A word's low byte, and what stands above it.
pub type Told = (u64, usize);

/// What a file of which all is in order comes to, in `fb_decode_picture`.
pub const MONO: Told = (0, 0);
pub const COLOUR: Told = (0, 1);

/// The numbers of refusals, which are a word's low byte.
pub const QUANTIZER: u64 = 2;
pub const MODE: u64 = 3;
pub const RESIDUAL: u64 = 4;
pub const LEVEL: u64 = 5;
pub const RANGE: u64 = 6;
pub const SIZE: u64 = 8;
pub const FORM: u64 = 9;
pub const FLAGS: u64 = 10;
pub const MARK: u64 = 11;
pub const NUMBER: u64 = 12;
pub const SUM: u64 = 13;
pub const DIFFERS: u64 = 17;

#[derive(Clone)]
pub struct Named {
    pub name: String,
    pub file: Vec<u8>,
    pub layout: Layout,
    pub told: Told,
}

/// Made once.
pub fn named() -> &'static [Named] {
    static NAMED: OnceLock<Vec<Named>> = OnceLock::new();
    NAMED.get_or_init(|| {
        let mut named = colour::files();
        named.extend(limits::files());
        for pair in sizes::pairs() {
            named.extend([&pair.whole, &pair.refused].map(Named::clone));
        }
        named
    })
}

/// The names that a file has.
pub fn names_of(file: &[u8]) -> impl Iterator<Item = &'static str> {
    static BY_FILE: OnceLock<HashMap<&[u8], Vec<&str>>> = OnceLock::new();
    let by_file = BY_FILE.get_or_init(|| {
        let mut by_file: HashMap<&[u8], Vec<&str>> = HashMap::new();
        for Named { name, file, .. } in named() {
            by_file.entry(file).or_default().push(name);
        }
        by_file
    });
    by_file.get(file).into_iter().flatten().copied()
}
