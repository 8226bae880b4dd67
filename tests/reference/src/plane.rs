//! Planes: coding one into a record file and decoding it again ("Plane and
//! record file" of document 01, requests 01 and 02 of document 02); and what a
//! decoder accepts, in colour too.

use crate::macroblock::{column_and_row, BLOCKS};
use crate::record::{self, Four, Layout, Luma, Macroblock, Sixteen};
use crate::sixteen::{self, Sides};
use crate::{code_block, predict, rebuild, Quantizer, Refusal};

/// What stands in the place of a missing neighbour. No answer depends on it.
const MISSING: u8 = 0xA5;

/// Codes a plane in slices of so many rows: writes the file and the rebuilt
/// plane, and answers how many bytes of the file's area it used. Refusals: SIZE,
/// LENGTH, QUANTIZER.
pub fn code_plane(
    width: usize,
    height: usize,
    rows: usize,
    qp: u8,
    plane: &[u8],
    file: &mut [u8],
    rebuilt: &mut [u8],
) -> Result<usize, Refusal> {
    let layout = Layout {
        width,
        height,
        rows,
    };
    code_plane_by(Sads::sixteen_wins, layout, qp, plane, file, rebuilt)
}

/// What the two candidates of a macroblock cost.
pub struct Sads {
    /// The sum of the sixteen 4x4 SADs.
    pub four: u32,
    /// Of 16x16 by mode; nothing for a mode that lacks what it needs.
    pub sixteen: [Option<u32>; 4],
}

impl Sads {
    /// The least of 16x16 with its mode, the lower number on a tie.
    pub fn best_sixteen(&self) -> (u32, u8) {
        let permitted = (0..).zip(self.sixteen);
        let costs = permitted.filter_map(|(mode, sad)| Some((sad?, mode)));
        costs.min().expect("the DC mode needs no neighbour")
    }

    /// "The macroblock takes it exactly if its SAD is below the sum of the
    /// sixteen 4x4 SADs."
    pub fn sixteen_wins(&self) -> bool {
        self.best_sixteen().0 < self.four
    }
}

/// `code_plane` with another choice between the two kinds of a macroblock, for
/// tests that want to see it or to have it their own way.
pub fn code_plane_by(
    mut takes_sixteen: impl FnMut(&Sads) -> bool,
    layout: Layout,
    qp: u8,
    plane: &[u8],
    file: &mut [u8],
    rebuilt: &mut [u8],
) -> Result<usize, Refusal> {
    layout.test()?;
    let lengths = [plane.len(), file.len(), rebuilt.len()];
    if lengths != [layout.samples(), layout.area(), layout.samples()] {
        return Err(Refusal::LENGTH);
    }
    Quantizer::new(qp)?;

    let numbers = 0..layout.macroblocks();
    let macroblocks: Vec<Macroblock> = numbers
        .map(|number| layout.code(number, qp, plane, rebuilt, &mut takes_sixteen))
        .collect();
    let written = record::file(layout, &macroblocks)?;
    file[..written.len()].copy_from_slice(&written);
    Ok(written.len())
}

/// Decodes the luma plane of a record file, mono or colour. Refusals: those of the
/// head, LENGTH of the plane, and those of `accepted`.
pub fn decode_plane(file: &[u8], plane: &mut [u8]) -> Result<(), Refusal> {
    let layout = record::read_head(file)?;
    if plane.len() != layout.samples() {
        return Err(Refusal::LENGTH);
    }
    let macroblocks = layout.accepted(file)?;
    for (number, macroblock) in macroblocks.iter().enumerate() {
        layout.decode(number, macroblock, plane)?;
    }
    Ok(())
}

/// The samples of one block of 4x4; MODE or RANGE by the entry points' own tests.
fn decoded(
    qp: u8,
    four: &Four,
    block: usize,
    neighbours: &[u8; 13],
    flags: u8,
) -> Result<[u8; 16], Refusal> {
    let mut prediction = [0; 16];
    predict(neighbours, flags, four.modes[block], &mut prediction)?;
    let mut samples = [0; 16];
    let levels = four.levels[block].map(i32::from);
    rebuild(qp, &prediction, &levels, &mut samples)?;
    Ok(samples)
}

impl Layout {
    /// The macroblocks of a file whose head has this layout, or why a decoder takes
    /// none of them. By record FORM if its mark is cut, MARK, FORM if its rest is cut,
    /// NUMBER, SUM; FORM of bytes behind the last; and then by record QUANTIZER, MODE,
    /// RANGE, with the macroblock's number and the block as place, and of a chroma
    /// record with its first byte.
    pub(crate) fn accepted(self, file: &[u8]) -> Result<Vec<Macroblock>, Refusal> {
        let macroblocks = record::read_records(file, self.macroblocks())
            .map_err(|broken| broken.refusal(file.len()))?;
        let records: usize = macroblocks.iter().map(Macroblock::bytes).sum();
        let mut behind = file.len() - records;
        for (number, macroblock) in macroblocks.iter().enumerate() {
            let at = |refusal: Refusal, first: usize| Refusal {
                place: first as u64 + refusal.place,
                ..refusal
            };
            self.test_content(number, macroblock)
                .map_err(|refusal| at(refusal, 16 * number))?;
            let chroma = behind + macroblock.kind().bytes();
            self.test_chroma(number, macroblock)
                .map_err(|refusal| at(refusal, chroma))?;
            behind += macroblock.bytes();
        }
        Ok(macroblocks)
    }

    /// The luma of a macroblock into its plane.
    pub(crate) fn decode(
        self,
        number: usize,
        Macroblock { qp, luma, .. }: &Macroblock,
        plane: &mut [u8],
    ) -> Result<(), Refusal> {
        match luma {
            Luma::Four(four) => {
                for block in 0..16 {
                    let here = self.block(number, block);
                    let samples = decoded(*qp, four, block, &here.neighbours(plane), here.flags())?;
                    here.store(&samples, plane);
                }
            }
            Luma::Sixteen(sixteen) => {
                let here = self.block(number, 0);
                let samples = sixteen.decoded(*qp, &here.sides(plane))?;
                here.store(&samples, plane);
            }
        }
        Ok(())
    }

    /// A macroblock of the kind that is taken, without chroma; its samples go into
    /// the rebuilt plane.
    pub(crate) fn code(
        self,
        number: usize,
        qp: u8,
        plane: &[u8],
        rebuilt: &mut [u8],
        takes_sixteen: &mut impl FnMut(&Sads) -> bool,
    ) -> Macroblock {
        let (coded, cost) = self.code_four(number, qp, plane, rebuilt);
        let here = self.block(number, 0);
        // What 16x16 is predicted from lies outside the macroblock.
        let (sides, samples) = (here.sides(rebuilt), here.samples(plane));
        let sads = Sads {
            four: cost,
            sixteen: sixteen::sads(&sides, &samples),
        };
        let luma = if takes_sixteen(&sads) {
            let (_, mode) = sads.best_sixteen();
            let coded = Sixteen::coded(qp, &sides, mode, &samples);
            let samples = coded.decoded(qp, &sides);
            here.store(&samples.expect("own levels are in range"), rebuilt);
            Luma::Sixteen(coded)
        } else {
            Luma::Four(coded)
        };
        Macroblock {
            qp,
            luma,
            chroma: None,
        }
    }

    /// A macroblock as 4x4, with the sum of its SADs; its samples go into the
    /// rebuilt plane, where they are neighbours of its later blocks.
    fn code_four(self, number: usize, qp: u8, plane: &[u8], rebuilt: &mut [u8]) -> (Four, u32) {
        let mut four = Four {
            modes: [0; 16],
            levels: [[0; 16]; 16],
        };
        let mut cost = 0;
        for block in 0..16 {
            let here = self.block(number, block);
            let (neighbours, flags) = (here.neighbours(rebuilt), here.flags());
            let (mut levels, mut samples) = ([0; 16], [0; 16]);
            let choice = code_block(
                qp,
                flags,
                &neighbours,
                &here.samples::<16>(plane),
                &mut levels,
                &mut samples,
            )
            .expect("the flags and the QP are legal");
            here.store(&samples, rebuilt);
            four.modes[block] = choice.mode as u8;
            four.levels[block] = levels.map(|level| level as i16);
            cost += choice.sad;
        }
        (four, cost)
    }

    /// QUANTIZER, MODE, RANGE of a macroblock's luma; the place is the block.
    fn test_content(self, number: usize, macroblock: &Macroblock) -> Result<(), Refusal> {
        let qp = macroblock.qp;
        Quantizer::new(qp)?;
        match &macroblock.luma {
            Luma::Four(four) => self.test_four(number, qp, four),
            Luma::Sixteen(sixteen) => sixteen.test(qp, &self.block(number, 0).present_sides()),
        }
    }

    /// The same of its chroma, if it has some; the QP is luma's, and the place 0.
    fn test_chroma(self, number: usize, macroblock: &Macroblock) -> Result<(), Refusal> {
        let Some(chroma) = &macroblock.chroma else {
            return Ok(());
        };
        chroma.test(macroblock.qp, &self.chroma(number).present_sides())
    }

    /// All modes, then all ranges.
    fn test_four(self, number: usize, qp: u8, four: &Four) -> Result<(), Refusal> {
        let at = |refusal: Refusal, block: usize| Refusal {
            place: block as u64,
            ..refusal
        };
        for (block, &mode) in four.modes.iter().enumerate() {
            let flags = self.block(number, block).flags();
            predict(&[MISSING; 13], flags, mode, &mut [0; 16])
                .map_err(|refusal| at(refusal, block))?;
        }
        for (block, levels) in four.levels.iter().enumerate() {
            let levels = levels.map(i32::from);
            rebuild(qp, &[0; 16], &levels, &mut [0; 16]).map_err(|refusal| at(refusal, block))?;
        }
        Ok(())
    }

    /// A block of a macroblock in the luma plane.
    fn block(self, macroblock: usize, block: usize) -> Place {
        let (column, row) = column_and_row(block);
        let Place { x, y, .. } = self.macroblock(16, macroblock);
        Place {
            layout: self,
            side: 16,
            x: x + 4 * column as isize,
            y: y + 4 * row as isize,
        }
    }

    /// A macroblock in a chroma plane.
    pub(crate) fn chroma(self, macroblock: usize) -> Place {
        self.macroblock(8, macroblock)
    }

    fn macroblock(self, side: usize, number: usize) -> Place {
        Place {
            layout: self,
            side,
            x: (side * (number % self.width)) as isize,
            y: (side * (number / self.width)) as isize,
        }
    }

    /// When the block that holds a sample of a plane has its turn; a macroblock of
    /// this side has its blocks in the same order, as far as they go. `None` outside.
    fn turn(self, side: usize, x: isize, y: isize) -> Option<Turn> {
        let x = usize::try_from(x).ok().filter(|x| *x < side * self.width)?;
        let y = usize::try_from(y)
            .ok()
            .filter(|y| *y < side * self.height)?;
        let (column, row) = (x / side, y / side);
        Some(Turn {
            slice: row / self.rows,
            number: 16 * (row * self.width + column) + BLOCKS[y % side / 4][x % side / 4],
        })
    }
}

/// The turn of a block: its slice, and its place in the order of the picture,
/// macroblocks in raster order and in them the blocks by their numbers.
#[derive(Clone, Copy)]
struct Turn {
    slice: usize,
    number: usize,
}

/// A block's first sample in its plane; that of block 0 is its macroblock's.
#[derive(Clone, Copy)]
pub(crate) struct Place {
    layout: Layout,
    /// Of a macroblock in this plane: 16 in luma, 8 in chroma.
    side: usize,
    x: isize,
    y: isize,
}

impl Place {
    /// "Present" means "inside the picture, earlier, and in the same slice".
    /// Columns and rows count from the block's first sample.
    fn present(self, column: isize, row: isize) -> bool {
        let turn = |column, row| {
            let (x, y) = (self.x + column, self.y + row);
            self.layout.turn(self.side, x, y)
        };
        let own = turn(0, 0).expect("the block is inside");
        turn(column, row).is_some_and(|other| other.number < own.number && other.slice == own.slice)
    }

    /// Bit 0 is A to D, bit 1 I to L, bit 2 M, bit 3 E to H.
    fn flags(self) -> u8 {
        [(0, -1), (-1, 0), (-1, -1), (4, -1)]
            .iter()
            .enumerate()
            .map(|(bit, &(column, row))| u8::from(self.present(column, row)) << bit)
            .sum()
    }

    /// M, A to H, I to L.
    fn neighbours(self, plane: &[u8]) -> [u8; 13] {
        std::array::from_fn(|index| {
            let along = index as isize;
            let (column, row) = match index {
                0..=8 => (along - 1, -1),
                _ => (-1, along - 9),
            };
            self.sample(column, row, plane).unwrap_or(MISSING)
        })
    }

    /// What stands beside the macroblock that begins here.
    pub(crate) fn sides<const N: usize>(self, plane: &[u8]) -> Sides<N> {
        sides(|column, row| self.sample(column, row, plane))
    }

    /// What of it is present, for tests that no sample decides.
    fn present_sides<const N: usize>(self) -> Sides<N> {
        sides(|column, row| self.present(column, row).then_some(MISSING))
    }

    /// A neighbour, if it is present.
    fn sample(self, column: isize, row: isize, plane: &[u8]) -> Option<u8> {
        self.present(column, row)
            .then(|| plane[self.index(column, row)])
    }

    /// The samples of a square that begins here, by rows: 16 of a block, 256 or 64
    /// of a macroblock.
    pub(crate) fn samples<const N: usize>(self, plane: &[u8]) -> [u8; N] {
        std::array::from_fn(|place| plane[self.inner(place, N.isqrt())])
    }

    pub(crate) fn store<const N: usize>(self, samples: &[u8; N], plane: &mut [u8]) {
        for (place, &sample) in samples.iter().enumerate() {
            plane[self.inner(place, N.isqrt())] = sample;
        }
    }

    fn inner(self, place: usize, side: usize) -> usize {
        self.index((place % side) as isize, (place / side) as isize)
    }

    fn index(self, column: isize, row: isize) -> usize {
        (self.y + row) as usize * self.side * self.layout.width + (self.x + column) as usize
    }
}

/// The sides of a macroblock by their samples, where column and row count from its
/// first; a side with a missing one is none.
fn sides<const N: usize>(sample: impl Fn(isize, isize) -> Option<u8>) -> Sides<N> {
    let line = |place: fn(isize) -> (isize, isize)| {
        let mut line = [0; N];
        for (along, beside) in line.iter_mut().enumerate() {
            let (column, row) = place(along as isize);
            *beside = sample(column, row)?;
        }
        Some(line)
    };
    Sides {
        above: line(|x| (x, -1)),
        left: line(|y| (-1, y)),
        corner: sample(-1, -1),
    }
}
