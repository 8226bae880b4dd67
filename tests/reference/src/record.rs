//! The record file: "Every record starts with a two-byte mark and ends with a
//! two-byte sum". Numbers are high byte first.

use crate::Refusal;

/// The bytes that the area for a coded file counts for each macroblock: those of
/// the longer kind of luma record.
pub const MACROBLOCK: usize = 527;

/// And for each macroblock of a colour file as many more (request 05).
pub const CHROMA: usize = 265;

/// How a picture is cut: its width and height in macroblocks, and the rows of
/// macroblocks of a slice. "A slice is a run of n whole macroblock rows; the last
/// may be shorter."
#[derive(Clone, Copy, Debug, PartialEq, Eq)]
pub struct Layout {
    pub width: usize,
    pub height: usize,
    pub rows: usize,
}

impl Layout {
    pub fn one_slice(width: usize, height: usize) -> Layout {
        Layout {
            width,
            height,
            rows: height,
        }
    }

    pub fn macroblocks(self) -> usize {
        self.width * self.height
    }

    /// Of the luma plane.
    pub fn samples(self) -> usize {
        256 * self.macroblocks()
    }

    /// Of each chroma plane: 4:2:0 has one for four of luma.
    pub fn chroma_samples(self) -> usize {
        64 * self.macroblocks()
    }

    /// "The old head is one slice, and the coder writes it exactly if n is the
    /// height."
    pub fn head(self) -> Head {
        match self.rows == self.height {
            true => Head::Old,
            false => Head::New,
        }
    }

    /// The bytes that are lent to the coder for the file of a plane.
    pub fn area(self) -> usize {
        self.head().bytes() + MACROBLOCK * self.macroblocks()
    }

    /// And for that of a colour picture.
    pub fn colour_area(self) -> usize {
        self.area() + CHROMA * self.macroblocks()
    }

    /// SIZE of the dimensions; then SIZE if the rows of a slice are 0 or above the
    /// height.
    pub(crate) fn test(self) -> Result<(), Refusal> {
        test_size(self.width, self.height)?;
        match (1..=self.height).contains(&self.rows) {
            true => Ok(()),
            false => Err(Refusal::SIZE),
        }
    }
}

/// The two kinds of a head.
#[derive(Clone, Copy, Debug, PartialEq, Eq)]
pub enum Head {
    /// Width and height (document 01); the picture is one slice.
    Old,
    /// And the rows of a slice (request 02).
    New,
}

impl Head {
    pub const ALL: [Head; 2] = [Head::Old, Head::New];

    pub fn mark(self) -> [u8; 2] {
        match self {
            Head::Old => [0x48, 0x44],
            Head::New => [0x48, 0x53],
        }
    }

    /// The bytes of a head, from its mark to its sum.
    pub fn bytes(self) -> usize {
        match self {
            Head::Old => 8,
            Head::New => 10,
        }
    }

    /// The kind that a file begins with.
    pub fn of(file: &[u8]) -> Option<Head> {
        let begins = |head: &Head| file.starts_with(&head.mark());
        Head::ALL.into_iter().find(begins)
    }

    /// The head of these numbers, which need not be a picture's.
    pub fn written(self, width: u16, height: u16, rows: u16) -> Vec<u8> {
        let mut head = self.mark().to_vec();
        head.extend([width, height].map(u16::to_be_bytes).as_flattened());
        if self == Head::New {
            head.extend(rows.to_be_bytes());
        }
        with_sum(head)
    }
}

/// The kinds of a macroblock's records: of its luma one of two, and in a colour
/// file that of its chroma behind it.
#[derive(Clone, Copy, Debug, PartialEq, Eq)]
pub enum Kind {
    /// Intra 4x4.
    Four,
    /// Intra 16x16 (request 01).
    Sixteen,
    /// Both chroma planes (request 05).
    Chroma,
}

impl Kind {
    pub const ALL: [Kind; 3] = [Kind::Four, Kind::Sixteen, Kind::Chroma];
    pub const LUMA: [Kind; 2] = [Kind::Four, Kind::Sixteen];

    pub fn mark(self) -> [u8; 2] {
        match self {
            Kind::Four => [0x4D, 0x42],
            Kind::Sixteen => [0x4D, 0x36],
            Kind::Chroma => [0x4D, 0x43],
        }
    }

    /// The bytes of a record, from its mark to its sum.
    pub fn bytes(self) -> usize {
        match self {
            Kind::Four => 527,
            Kind::Sixteen => 520,
            Kind::Chroma => 265,
        }
    }
}

/// What the records of a macroblock say about it.
#[derive(Clone)]
pub struct Macroblock {
    pub qp: u8,
    pub luma: Luma,
    /// In a colour file.
    pub chroma: Option<Chroma>,
}

#[derive(Clone)]
pub enum Luma {
    Four(Four),
    Sixteen(Sixteen),
}

#[derive(Clone)]
pub struct Four {
    /// By block.
    pub modes: [u8; 16],
    /// By block, in zigzag order.
    pub levels: [[i16; 16]; 16],
}

#[derive(Clone)]
pub struct Sixteen {
    pub mode: u8,
    /// In zigzag order over the blocks' rows and columns.
    pub dc: [i16; 16],
    /// By block, in zigzag order without the first.
    pub ac: [[i16; 15]; 16],
}

#[derive(Clone, Debug, PartialEq, Eq)]
pub struct Chroma {
    /// Of Cb and of Cr.
    pub offsets: [i8; 2],
    /// For both.
    pub mode: u8,
    /// Of Cb and of Cr.
    pub levels: [ChromaLevels; 2],
}

#[derive(Clone, Debug, PartialEq, Eq)]
pub struct ChromaLevels {
    /// By rows of the blocks.
    pub dc: [i16; 4],
    /// By block, these by rows; in zigzag order without the first.
    pub ac: [[i16; 15]; 4],
}

/// The head that the coder writes. Refusals: SIZE.
pub fn head(layout: Layout) -> Result<Vec<u8>, Refusal> {
    head_of(layout.head(), layout)
}

fn head_of(head: Head, layout: Layout) -> Result<Vec<u8>, Refusal> {
    layout.test()?;
    let [width, height, rows] =
        [layout.width, layout.height, layout.rows].map(|number| number as u16);
    Ok(head.written(width, height, rows))
}

/// What the head that a file begins with says. Refusals: FORM if its mark is cut,
/// MARK, FORM if its rest is cut, SUM; then SIZE.
pub fn read_head(file: &[u8]) -> Result<Layout, Refusal> {
    let (kind, head) = sound_head(file).map_err(|broken| broken.refusal(0))?;
    let field = |at: usize| usize::from(number(head, at));
    let (width, height) = (field(2), field(4));
    let rows = match kind {
        Head::Old => height,
        Head::New => field(6),
    };
    let layout = Layout {
        width,
        height,
        rows,
    };
    layout.test()?;
    Ok(layout)
}

/// The head that the coder writes and each macroblock once, in order. Refusals:
/// SIZE.
pub fn file(layout: Layout, macroblocks: &[Macroblock]) -> Result<Vec<u8>, Refusal> {
    file_with(layout.head(), layout, macroblocks)
}

/// The same with a head of either kind: a decoder takes the new one for one
/// slice too. Refusals: SIZE.
pub fn file_with(
    head: Head,
    layout: Layout,
    macroblocks: &[Macroblock],
) -> Result<Vec<u8>, Refusal> {
    let mut file = head_of(head, layout)?;
    for (number, macroblock) in macroblocks.iter().enumerate() {
        file.extend(macroblock.records(number as u16));
    }
    Ok(file)
}

/// What can break the layout of a file.
#[derive(Clone, Copy, Debug, PartialEq, Eq)]
pub enum Fault {
    CutMark,
    Mark,
    CutRest,
    Number,
    Sum,
    Surplus,
}

/// The first fault, and the head or the record that it is in.
#[derive(Clone, Copy, Debug, PartialEq, Eq)]
pub struct Broken {
    pub fault: Fault,
    /// Its first byte: what is surplus begins where one more record would.
    pub first: usize,
    /// Its bytes from mark to sum; 0 where no mark that is known says them.
    pub bytes: usize,
}

impl Broken {
    /// "Keep 9 for a file too short, too long or with a cut head; 11 for a wrong
    /// mark, 12 for a wrong number, 13 for a wrong sum, each with the place of the
    /// offending field and not of the record." 9 has a place that is given: the
    /// head's is 0, and "a cut or surplus has the file length as place".
    pub fn refusal(self, form: usize) -> Refusal {
        match self.fault {
            Fault::CutMark | Fault::CutRest | Fault::Surplus => Refusal::form(form),
            Fault::Mark => Refusal::wrong_mark(self.first),
            Fault::Number => Refusal::wrong_number(self.first + 2),
            Fault::Sum => Refusal::wrong_sum(self.first + self.bytes - 2),
        }
    }
}

/// The head or the record that begins at a byte of a file, by the marks and lengths
/// of the kinds that may stand there: "9 if the mark is cut, 11, 9 if the rest is cut, 12, 13; the head
/// the same without 12", which expects no number.
fn sound<'a, K: Copy>(
    file: &'a [u8],
    first: usize,
    kinds: &[(K, [u8; 2], usize)],
    expected: Option<usize>,
) -> Result<(K, &'a [u8]), Broken> {
    let broken = |fault, bytes| Broken {
        fault,
        first,
        bytes,
    };
    let rest = &file[first..];
    let mark = rest.first_chunk().ok_or(broken(Fault::CutMark, 0))?;
    let known = kinds.iter().find(|(_, known, _)| known == mark);
    let &(kind, _, bytes) = known.ok_or(broken(Fault::Mark, 0))?;
    let whole = rest.get(..bytes).ok_or(broken(Fault::CutRest, bytes))?;
    if expected.is_some_and(|expected| usize::from(number(whole, 2)) != expected) {
        return Err(broken(Fault::Number, bytes));
    }
    if !sum_is_right(whole) {
        return Err(broken(Fault::Sum, bytes));
    }
    Ok((kind, whole))
}

/// The head that a file begins with, and its kind.
pub fn sound_head(file: &[u8]) -> Result<(Head, &[u8]), Broken> {
    let kinds = Head::ALL.map(|head| (head, head.mark(), head.bytes()));
    sound(file, 0, &kinds, None)
}

/// So many macroblocks, behind the head of a file, which is sound; bytes behind the
/// last record come at the end. "A chroma record follows every luma record of a
/// colour file. The file is colour exactly if its first macroblock has one."
pub fn read_records(file: &[u8], count: usize) -> Result<Vec<Macroblock>, Broken> {
    let known = |kind: Kind| (kind, kind.mark(), kind.bytes());
    let (luma, chroma) = (Kind::LUMA.map(known), [known(Kind::Chroma)]);
    let mut macroblocks = Vec::new();
    let mut colour = false;
    let mut at = Head::of(file).expect("the head is sound").bytes();
    for expected in 0..count {
        let (kind, record) = sound(file, at, &luma, Some(expected))?;
        let mut macroblock = Macroblock::read(kind, record);
        at += record.len();
        if expected == 0 {
            colour = file[at..].starts_with(&Kind::Chroma.mark());
        }
        if colour {
            let (_, record) = sound(file, at, &chroma, Some(expected))?;
            macroblock.chroma = Some(Chroma::read(record));
            at += record.len();
        }
        macroblocks.push(macroblock);
    }
    match at == file.len() {
        true => Ok(macroblocks),
        false => Err(Broken {
            fault: Fault::Surplus,
            first: at,
            bytes: 0,
        }),
    }
}

impl Macroblock {
    /// Of its luma record.
    pub fn kind(&self) -> Kind {
        match self.luma {
            Luma::Four(_) => Kind::Four,
            Luma::Sixteen(_) => Kind::Sixteen,
        }
    }

    /// The bytes of all its records.
    pub fn bytes(&self) -> usize {
        let chroma = self.chroma.as_ref().map(|_| Kind::Chroma.bytes());
        self.kind().bytes() + chroma.unwrap_or(0)
    }

    /// The records of macroblock `number`.
    pub fn records(&self, number: u16) -> Vec<u8> {
        let mut records = self.record(number);
        if let Some(chroma) = &self.chroma {
            records.extend(chroma.record(number));
        }
        records
    }

    /// The luma record of macroblock `number`.
    pub fn record(&self, number: u16) -> Vec<u8> {
        let mut record = self.kind().mark().to_vec();
        record.extend(number.to_be_bytes());
        record.push(self.qp);
        let levels = match &self.luma {
            Luma::Four(Four { modes, levels }) => {
                record.extend(modes.chunks(2).map(|pair| pair[0] | pair[1] << 4));
                levels.as_flattened().to_vec()
            }
            Luma::Sixteen(Sixteen { mode, dc, ac }) => {
                record.push(*mode);
                [dc, ac.as_flattened()].concat()
            }
        };
        record.extend(levels.iter().flat_map(|level| level.to_be_bytes()));
        with_sum(record)
    }

    /// The same backwards.
    fn read(kind: Kind, record: &[u8]) -> Macroblock {
        let level = |at: usize, index: usize| number(record, at + 2 * index) as i16;
        let luma = match kind {
            Kind::Four => Luma::Four(Four {
                modes: std::array::from_fn(|block| record[5 + block / 2] >> (4 * (block % 2)) & 15),
                levels: std::array::from_fn(|block| {
                    std::array::from_fn(|index| level(13 + 32 * block, index))
                }),
            }),
            Kind::Sixteen => Luma::Sixteen(Sixteen {
                mode: record[5],
                dc: std::array::from_fn(|index| level(6, index)),
                ac: std::array::from_fn(|block| {
                    std::array::from_fn(|index| level(38 + 30 * block, index))
                }),
            }),
            Kind::Chroma => unreachable!("it is a luma record"),
        };
        Macroblock {
            qp: record[4],
            luma,
            chroma: None,
        }
    }
}

impl Chroma {
    /// "A chroma record, 265 bytes, mark 4D 43, with number, both offsets (signed
    /// bytes), mode, 64 levels of Cb then of Cr (4 DC, then 4 times 15 AC), sum."
    pub fn record(&self, number: u16) -> Vec<u8> {
        let mut record = Kind::Chroma.mark().to_vec();
        record.extend(number.to_be_bytes());
        record.extend(self.offsets.map(|offset| offset as u8));
        record.push(self.mode);
        for ChromaLevels { dc, ac } in &self.levels {
            let levels = dc.iter().chain(ac.as_flattened());
            record.extend(levels.flat_map(|level| level.to_be_bytes()));
        }
        with_sum(record)
    }

    /// The same backwards.
    fn read(record: &[u8]) -> Chroma {
        let level = |at: usize, index: usize| number(record, at + 2 * index) as i16;
        let levels = |at: usize| ChromaLevels {
            dc: std::array::from_fn(|index| level(at, index)),
            ac: std::array::from_fn(|block| {
                std::array::from_fn(|index| level(at + 8 + 30 * block, index))
            }),
        };
        Chroma {
            offsets: [record[4] as i8, record[5] as i8],
            mode: record[6],
            levels: [levels(7), levels(7 + 128)],
        }
    }
}

/// SIZE if a dimension is 0 or above 128.
pub(crate) fn test_size(width: usize, height: usize) -> Result<(), Refusal> {
    let side = 1..=128;
    if !side.contains(&width) || !side.contains(&height) {
        return Err(Refusal::SIZE);
    }
    Ok(())
}

/// The two-byte number at a place.
fn number(bytes: &[u8], at: usize) -> u16 {
    u16::from_be_bytes([bytes[at], bytes[at + 1]])
}

/// A record with its sum behind it.
fn with_sum(mut record: Vec<u8>) -> Vec<u8> {
    record.extend(sum(&record).to_be_bytes());
    record
}

/// Whether a record ends with the sum of its earlier bytes.
pub fn sum_is_right(record: &[u8]) -> bool {
    let end = record.len() - 2;
    number(record, end) == sum(&record[..end])
}

/// All bytes added modulo 65536.
fn sum(bytes: &[u8]) -> u16 {
    bytes
        .iter()
        .fold(0, |sum: u16, &byte| sum.wrapping_add(u16::from(byte)))
}
