//! PGM and PPM: P5 and P6 of netpbm, 8 bits, highest value 255. Other kinds are refused in words.
//!
//! A head is the mark, width, height and highest value, with white space (blanks, TABs, CRs, LFs) between them and one such character
//! behind them; a `#` begins a comment up to the end of its line, before that last character. Then come the samples by rows, and nothing
//! behind them.

use std::borrow::Cow;
use std::fmt;

/// No number of a head is above this one.
const MOST: usize = 1_000_000;

/// What a picture's samples are.
#[derive(Clone, Copy, Debug, PartialEq, Eq)]
pub enum Kind {
    /// P5: one sample for each place.
    Grey,
    /// P6: red, green and blue for each place.
    Colour,
}

impl Kind {
    /// Bytes for each place.
    pub const fn depth(self) -> usize {
        match self {
            Kind::Grey => 1,
            Kind::Colour => 3,
        }
    }

    pub const fn name(self) -> &'static str {
        match self {
            Kind::Grey => "PGM (P5)",
            Kind::Colour => "PPM (P6)",
        }
    }
}

/// A picture as it stands in a file.
#[derive(Clone, Debug, PartialEq, Eq)]
pub struct Picture<'a> {
    pub kind: Kind,
    pub width: usize,
    pub height: usize,
    /// By rows, `depth` bytes for each place.
    pub samples: Cow<'a, [u8]>,
}

impl Picture<'_> {
    pub fn size(&self) -> String {
        format!("{} x {} samples", self.width, self.height)
    }
}

/// Why a file is no picture, and at which byte.
#[derive(Clone, Debug, PartialEq, Eq)]
pub struct Malformed {
    pub place: usize,
    pub why: String,
}

impl fmt::Display for Malformed {
    fn fmt(&self, out: &mut fmt::Formatter) -> fmt::Result {
        write!(out, "at byte {}: {}", self.place, self.why)
    }
}

/// The head of a picture.
pub fn head(kind: Kind, width: usize, height: usize) -> Vec<u8> {
    let mark = match kind {
        Kind::Grey => "P5",
        Kind::Colour => "P6",
    };
    format!("{mark}\n{width} {height}\n255\n").into_bytes()
}

/// The picture of a file; its samples stay where they are.
pub fn parse(file: &[u8]) -> Result<Picture<'_>, Malformed> {
    let kind = mark(file)?;
    let mut head = Head { file, place: 2 };
    let width = head.number("the width")?;
    let height = head.number("the height")?;
    let place = head.place;
    let highest = head.number("the highest value")?;
    if highest != 255 {
        let why = format!("the highest value is {highest}, and only 255 (8 bits) is taken");
        return Err(Malformed { place, why });
    }
    // the white space behind the highest value is part of the head
    let begin = head.place + 1;
    let samples = &file[begin.min(file.len())..];
    let wanted = [width, height, kind.depth()].iter().try_fold(1usize, |product, side| product.checked_mul(*side));
    if wanted != Some(samples.len()) {
        return Err(wrong_length(file, begin, kind, [width, height], wanted));
    }
    Ok(Picture { kind, width, height, samples: Cow::Borrowed(samples) })
}

fn mark(file: &[u8]) -> Result<Kind, Malformed> {
    let why = match file.get(..2) {
        Some(b"P5") => return Ok(Kind::Grey),
        Some(b"P6") => return Ok(Kind::Colour),
        Some(b"P1" | b"P4") => "this is a PBM (black and white)",
        Some(b"P2") => "this is a plain PGM (P2, numbers as text)",
        Some(b"P3") => "this is a plain PPM (P3, numbers as text)",
        Some(b"P7") => "this is a PAM (P7)",
        Some([b'H', b'D' | b'S']) => "this looks like a record file, not like a picture",
        _ if file.is_empty() => "the file is empty",
        _ => "this is no PGM or PPM",
    };
    Err(Malformed { place: 0, why: format!("{why}; a picture begins with P5 (PGM) or P6 (PPM)") })
}

fn wrong_length(file: &[u8], begin: usize, kind: Kind, size: [usize; 2], wanted: Option<usize>) -> Malformed {
    let [width, height] = size;
    let there = file.len().saturating_sub(begin);
    let right = wanted.map_or_else(|| String::from("more than a file can have"), |wanted| wanted.to_string());
    let place = begin.saturating_add(wanted.unwrap_or(usize::MAX)).min(file.len());
    let why = format!("{there} bytes of samples are there, and a {} of {width} x {height} has {right}", kind.name());
    Malformed { place, why }
}

/// The bytes of a head from a place on.
struct Head<'a> {
    file: &'a [u8],
    place: usize,
}

impl Head<'_> {
    fn malformed(&self, why: String) -> Malformed {
        Malformed { place: self.place, why }
    }

    fn byte(&self) -> Option<u8> {
        self.file.get(self.place).copied()
    }

    /// The number behind white space and comments; the place is then that of the white space behind it.
    fn number(&mut self, what: &str) -> Result<usize, Malformed> {
        let begin = self.place;
        self.skip_space();
        if self.place == begin {
            return Err(self.expected("white space before", what));
        }
        let digits = self.file[self.place..].iter().take_while(|byte| byte.is_ascii_digit()).count();
        if digits == 0 {
            return Err(self.expected("digits of", what));
        }
        let text = &self.file[self.place..self.place + digits];
        let number = text.iter().try_fold(0, |number: usize, digit| Some(10 * number + usize::from(digit - b'0')).filter(|it| *it <= MOST));
        let Some(number) = number else {
            return Err(self.malformed(format!("{what} is above {MOST}, and no picture is so large")));
        };
        self.place += digits;
        self.skip_comment();
        match self.byte() {
            Some(b' ' | b'\t' | b'\r' | b'\n') => Ok(number),
            _ => Err(self.expected("white space behind", what)),
        }
    }

    fn expected(&self, right: &str, what: &str) -> Malformed {
        self.malformed(match self.byte() {
            None => format!("the file ends, and {right} {what} should stand there"),
            Some(byte) => format!("the byte {byte:02X} stands there, and {right} {what} should"),
        })
    }

    /// White space and comments.
    fn skip_space(&mut self) {
        loop {
            self.skip_comment();
            match self.byte() {
                Some(b' ' | b'\t' | b'\r' | b'\n') => self.place += 1,
                _ => return,
            }
        }
    }

    /// A comment if one begins here, up to the end of its line, which stays.
    fn skip_comment(&mut self) {
        if self.byte() == Some(b'#') {
            let rest = &self.file[self.place..];
            self.place += rest.iter().position(|byte| matches!(byte, b'\r' | b'\n')).unwrap_or(rest.len());
        }
    }
}
