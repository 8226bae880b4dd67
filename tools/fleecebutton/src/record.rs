//! The records of a file, for what reads them beside the decoder: words about a refusal, and figures about a file. Nothing is tested here
//! but that a record is whole; whether a file is accepted is the library's to say.

/// The kinds of records behind the head.
#[derive(Clone, Copy, Debug, PartialEq, Eq)]
pub enum Kind {
    /// A macroblock's luma by its sixteen blocks of 4x4.
    Four,
    /// A macroblock's luma as a whole, 16x16.
    Sixteen,
    /// A macroblock's Cb and Cr.
    Chroma,
}

impl Kind {
    /// The kind of the record that begins with these bytes.
    fn of(bytes: &[u8]) -> Option<Kind> {
        match bytes.get(..2)? {
            [0x4D, 0x42] => Some(Kind::Four),
            [0x4D, 0x36] => Some(Kind::Sixteen),
            [0x4D, 0x43] => Some(Kind::Chroma),
            _ => None,
        }
    }

    /// Bytes of a record, from its mark to its sum.
    pub const fn length(self) -> usize {
        match self {
            Kind::Four => 527,
            Kind::Sixteen => 520,
            Kind::Chroma => 265,
        }
    }

    /// Where its levels begin: behind mark, number, QP or offsets, and modes.
    const fn front(self) -> usize {
        match self {
            Kind::Four => 13,
            Kind::Sixteen => 6,
            Kind::Chroma => 7,
        }
    }
}

/// Bytes of the head that a file begins with; none where its mark is not a head's.
pub(crate) fn head_length(file: &[u8]) -> Option<usize> {
    match file.get(..2)? {
        [0x48, 0x44] => Some(8),
        [0x48, 0x53] => Some(10),
        _ => None,
    }
}

/// The number in two bytes, the high one first; none where the file ends before.
pub(crate) fn number_at(bytes: &[u8], place: usize) -> Option<u16> {
    let pair = bytes.get(place..place.checked_add(2)?)?;
    Some(u16::from_be_bytes([pair[0], pair[1]]))
}

/// What a record's sum should be: all its bytes before it, added modulo 65536.
pub(crate) fn sum(bytes: &[u8]) -> u16 {
    bytes.iter().fold(0, |sum, &byte| sum.wrapping_add(u16::from(byte)))
}

/// A whole record of a file.
#[derive(Clone, Copy, Debug)]
pub struct Record<'a> {
    kind: Kind,
    place: usize,
    bytes: &'a [u8],
}

impl<'a> Record<'a> {
    /// Its kind, by its mark.
    pub fn kind(&self) -> Kind {
        self.kind
    }

    /// Its first byte in the file.
    pub fn place(&self) -> usize {
        self.place
    }

    /// All its bytes, from its mark to its sum.
    pub fn bytes(&self) -> &'a [u8] {
        self.bytes
    }

    /// The QP; none of a chroma record, which has offsets.
    pub fn qp(&self) -> Option<u8> {
        match self.kind {
            Kind::Four | Kind::Sixteen => Some(self.bytes[4]),
            Kind::Chroma => None,
        }
    }

    /// The offsets of Cb and Cr; none of a luma record.
    pub fn offsets(&self) -> Option<[i8; 2]> {
        match self.kind {
            Kind::Four | Kind::Sixteen => None,
            Kind::Chroma => Some([self.bytes[4], self.bytes[5]].map(|byte| byte as i8)),
        }
    }

    /// The modes: sixteen of a 4x4 record, in the order of its blocks, and one of the others.
    pub fn modes(&self) -> Vec<u8> {
        match self.kind {
            Kind::Four => self.bytes[5..13].iter().flat_map(|pair| [pair & 15, pair >> 4]).collect(),
            Kind::Sixteen => vec![self.bytes[5]],
            Kind::Chroma => vec![self.bytes[6]],
        }
    }

    /// The levels, in the order of the file.
    pub fn levels(&self) -> impl Iterator<Item = i16> + 'a {
        let levels = &self.bytes[self.kind.front()..self.bytes.len() - 2];
        levels.chunks_exact(2).map(|pair| i16::from_be_bytes([pair[0], pair[1]]))
    }
}

/// The records of a file one after the other, each by its mark, up to the first that is cut or has no mark of a record.
#[derive(Clone, Debug)]
pub struct Records<'a> {
    file: &'a [u8],
    place: usize,
}

impl<'a> Records<'a> {
    /// Those behind the head; none where a file has no head's mark.
    pub fn of(file: &'a [u8]) -> Records<'a> {
        Records { file, place: head_length(file).unwrap_or(file.len()) }
    }

    /// The place behind the last record that was given.
    pub fn place(&self) -> usize {
        self.place
    }
}

impl<'a> Iterator for Records<'a> {
    type Item = Record<'a>;

    fn next(&mut self) -> Option<Record<'a>> {
        let rest = self.file.get(self.place..)?;
        let kind = Kind::of(rest)?;
        let record = Record { kind, place: self.place, bytes: rest.get(..kind.length())? };
        self.place += kind.length();
        Some(record)
    }
}
