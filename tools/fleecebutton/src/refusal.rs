//! A refusal, as the library sends it and in words.

use crate::calls::Word;
use std::fmt;

/// The numbers of the refusals.
pub mod number {
    /// A lent array has another length than it should.
    pub const LENGTH: u8 = 1;
    /// QP above 51, or an offset outside -12 to 12.
    pub const QUANTIZER: u8 = 2;
    /// No such mode, or what it needs is missing.
    pub const MODE: u8 = 3;
    /// A residual or a DC coefficient out of its range.
    pub const RESIDUAL: u8 = 4;
    /// A level that does not fit 16 bits.
    pub const LEVEL: u8 = 5;
    /// A rescaled level or a given DC that does not fit 16 bits.
    pub const RANGE: u8 = 6;
    /// No picture has such a size, or such slices.
    pub const SIZE: u8 = 8;
    /// A file is too short or too long.
    pub const FORM: u8 = 9;
    /// Flags above 15, or a byte of a map above 1.
    pub const FLAGS: u8 = 10;
    /// A mark that does not belong there.
    pub const MARK: u8 = 11;
    /// A record with another number than its macroblock's.
    pub const NUMBER: u8 = 12;
    /// A wrong sum.
    pub const SUM: u8 = 13;
    /// A delivered sample that is not the decoder's.
    pub const DIFFERS: u8 = 17;
}

/// Why a function has done nothing. Its `Display` is one line for the person at the bench: what was refused, where, and what would have
/// been right.
#[derive(Clone, Debug, PartialEq, Eq)]
pub struct Refusal {
    number: u8,
    place: u64,
    words: Words,
}

/// Where it is, if a place is named, and what is wrong there.
#[derive(Clone, Debug, Default, PartialEq, Eq)]
pub(crate) struct Words {
    pub place: Option<String>,
    pub wrong: String,
}

impl Words {
    /// Of a refusal that names no place.
    pub fn new(wrong: impl Into<String>) -> Words {
        Words { place: None, wrong: wrong.into() }
    }

    /// Of one that does.
    pub fn at(place: impl Into<String>, wrong: impl Into<String>) -> Words {
        Words { place: Some(place.into()), wrong: wrong.into() }
    }
}

impl Refusal {
    /// Its number, as the library and the papers have it ([`number`]).
    pub fn number(&self) -> u8 {
        self.number
    }

    /// The papers' word for the number.
    pub fn name(&self) -> &'static str {
        match self.number {
            number::LENGTH => "LENGTH",
            number::QUANTIZER => "QUANTIZER",
            number::MODE => "MODE",
            number::RESIDUAL => "RESIDUAL",
            number::LEVEL => "LEVEL",
            number::RANGE => "RANGE",
            number::SIZE => "SIZE",
            number::FORM => "FORM",
            number::FLAGS => "FLAGS",
            number::MARK => "MARK",
            number::NUMBER => "NUMBER",
            number::SUM => "SUM",
            number::DIFFERS => "DIFFERS",
            _ => "UNKNOWN",
        }
    }

    /// Its place, as the library sends it: what it counts depends on the number (`include/fleecebutton.h`), and is 0 where none is named.
    pub fn place(&self) -> u64 {
        self.place
    }
}

impl fmt::Display for Refusal {
    fn fmt(&self, out: &mut fmt::Formatter) -> fmt::Result {
        write!(out, "{} (refusal {})", self.name(), self.number)?;
        if let Some(place) = &self.words.place {
            write!(out, " at {place}")?;
        }
        write!(out, ": {}", self.words.wrong)
    }
}

impl std::error::Error for Refusal {}

impl Word {
    /// The value, or the refusal with the words that are made of its number and place.
    pub(crate) fn value(self, words: impl FnOnce(u8, u64) -> Words) -> Result<u64, Refusal> {
        let (number, above) = self.parts();
        if number == 0 {
            return Ok(above);
        }
        let words = words(number, above);
        Err(Refusal { number, place: above, words })
    }

    /// The low byte, and what stands above it.
    pub(crate) fn parts(self) -> (u8, u64) {
        ((self.0 & 255) as u8, self.0 >> 8)
    }
}

#[cfg(test)]
mod tests {
    use super::*;

    /// 7 is retired, 14 to 16 are not in use: the library sends none of them, and a later one that does is still told in words.
    #[test]
    fn numbers_that_no_function_sends_have_words_too() {
        for number in [7, 14, 15, 16, 18, 255] {
            let word = Word(u64::from(number) + 256 * 5);
            let refusal = word.value(|_, place| crate::words::unknown(place)).unwrap_err();
            assert_eq!((refusal.number(), refusal.name(), refusal.place()), (number, "UNKNOWN", 5));
            let expected = format!("UNKNOWN (refusal {number}) at place 5: this tool has no words for what the library refuses here");
            assert_eq!(refusal.to_string(), expected);
        }
    }

    /// The names are the header's, and so are the numbers.
    #[test]
    fn the_header_has_the_same_names() {
        let header = std::fs::read_to_string(concat!(env!("CARGO_MANIFEST_DIR"), "/../../include/fleecebutton.h")).unwrap();
        let list = header.split_once("enum fb_refusal {").unwrap().1.split_once("};").unwrap().0;
        let named = list.lines().filter_map(|line| line.trim().strip_prefix("FB_")?.split_once(" = "));
        let mut known = 0;
        for (name, rest) in named {
            let number: String = rest.chars().take_while(char::is_ascii_digit).collect();
            let word = Word(number.parse().unwrap());
            assert_eq!(word.value(|_, place| crate::words::unknown(place)).unwrap_err().name(), name);
            known += 1;
        }
        let own = (1..=255).filter(|number| Word(*number).value(|_, _| Words::default()).unwrap_err().name() != "UNKNOWN");
        assert_eq!((known, own.count()), (13, 13));
    }

    #[test]
    fn a_success_has_its_value() {
        assert_eq!(Word(256 * 7).value(|_, _| unreachable!()), Ok(7));
    }
}
