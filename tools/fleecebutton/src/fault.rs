//! The words of refusals that come of what a file holds: which record it is, what stands there, and what would have been right. The number
//! and the place are the library's; the file is looked at only to say more about them.

use crate::calls::{self, Word};
use crate::layout::{Layout, Macroblock};
use crate::record::{head_length, number_at, sum, Kind, Record, Records};
use crate::refusal::number::{FORM, MARK, MODE, NUMBER, QUANTIZER, RANGE, SIZE, SUM};
use crate::refusal::Words;
use crate::words;

/// What the head's bytes say, whether a picture has it or not.
pub fn layout(file: &[u8]) -> Layout {
    let said = |place| number_at(file, place).map_or(0, usize::from);
    let (width, height) = (said(2), said(4));
    let rows = if head_length(file) == Some(10) { said(6) } else { height };
    Layout { width, height, rows }
}

/// Of a refusal by `fb_read_head`, `fb_decode_plane`, `fb_decode_picture` or `fb_inspect`, LENGTH and DIFFERS aside.
pub fn words(file: &[u8], word: Word) -> Words {
    let (number, above) = word.parts();
    let place = usize::try_from(above).unwrap_or(usize::MAX);
    match number {
        SIZE => words::size("the head says", layout(file)),
        FORM => form(file),
        MARK => mark(file, place),
        NUMBER => record_number(file, place),
        SUM => record_sum(file, place),
        QUANTIZER | MODE | RANGE => content(file, word),
        _ => words::unknown(above),
    }
}

/// Where a record should begin, and of which macroblock.
struct Expected {
    place: usize,
    macroblock: Macroblock,
    chroma: bool,
}

impl Expected {
    fn name(&self) -> String {
        let kind = if self.chroma { "chroma" } else { "luma" };
        format!("the {kind} record of {}", self.macroblock)
    }

    /// Whether a record is of the right kind.
    fn takes(&self, record: &Record) -> bool {
        (record.kind() == Kind::Chroma) == self.chroma
    }
}

/// The places where records should begin, up to the first that has no whole record of the right kind; and the end, if there is none such.
fn walk(file: &[u8]) -> (Vec<Expected>, Option<usize>) {
    let layout = layout(file);
    let mut records = Records::of(file);
    // a file is colour exactly if a chroma mark follows its first luma record
    let colour = records.clone().next().is_some_and(|first| file[first.place() + first.bytes().len()..].starts_with(&[0x4D, 0x43]));
    let mut seen = Vec::new();
    for number in 0..layout.macroblocks() as u64 {
        for chroma in [false, true].into_iter().take(1 + usize::from(colour)) {
            let expected = Expected { place: records.place(), macroblock: layout.macroblock(number), chroma };
            let found = records.next().is_some_and(|record| expected.takes(&record));
            seen.push(expected);
            if !found {
                return (seen, None);
            }
        }
    }
    (seen, Some(records.place()))
}

/// The file is too short or too long.
fn form(file: &[u8]) -> Words {
    let length = file.len();
    let Some(head) = head_length(file) else {
        return Words::new(format!("the file has {length} bytes, and its head alone has 8 or 10"));
    };
    if length < head {
        return Words::new(format!("the file has {length} bytes, and its head, which begins with {}, alone has {head}", shown(file, 0)));
    }
    let place = format!("byte {length}, where the file ends");
    match walk(file) {
        (_, Some(end)) => Words::at(place, format!("the last record ends at byte {end}, and nothing may stand behind it")),
        (seen, None) => match seen.last() {
            Some(cut) => Words::at(place, format!("{}, which begins at byte {}, is not all there", cut.name(), cut.place)),
            None => words::unknown(length as u64),
        },
    }
}

/// Two bytes as a dump shows them.
fn shown(file: &[u8], place: usize) -> String {
    number_at(file, place).map_or_else(|| String::from("nothing"), hex)
}

fn hex(number: u16) -> String {
    let [high, low] = number.to_be_bytes();
    format!("{high:02X} {low:02X}")
}

fn byte(place: usize) -> String {
    format!("byte {place}")
}

/// A mark that does not belong there.
fn mark(file: &[u8], place: usize) -> Words {
    let found = shown(file, place);
    if place == 0 {
        return Words::at(byte(place), format!("the file begins with {found}, and a record file begins with 48 44 or 48 53"));
    }
    let (seen, _) = walk(file);
    let Some(index) = seen.iter().position(|expected| expected.place == place) else {
        return Words::at(byte(place), format!("{found} is no mark of a record that belongs there"));
    };
    let right = match (seen[index].chroma, index) {
        (true, _) => "4D 43",
        // behind the first luma record a chroma mark would make it a colour file
        (false, 1) => "4D 42 or 4D 36 (in a colour file a chroma record comes before it, with 4D 43)",
        (false, _) => "4D 42 or 4D 36",
    };
    Words::at(byte(place), format!("{found} stands there, and {} begins with {right}", seen[index].name()))
}

/// A record with another number than its macroblock's.
fn record_number(file: &[u8], place: usize) -> Words {
    let found = number_at(file, place).map_or_else(String::new, |number| format!("the number {number} stands there, and "));
    let (seen, _) = walk(file);
    match seen.iter().find(|expected| expected.place + 2 == place) {
        Some(expected) => Words::at(byte(place), format!("{found}{} has the number {}", expected.name(), expected.macroblock.number)),
        None => Words::at(byte(place), format!("{found}the record of another macroblock belongs there")),
    }
}

/// A wrong sum, of the head or of a record.
fn record_sum(file: &[u8], place: usize) -> Words {
    let head = head_length(file).filter(|head| head - 2 == place).map(|_| (String::from("the head"), 0));
    let summed = head.or_else(|| {
        let (seen, _) = walk(file);
        let record = Records::of(file).find(|record| record.place() + record.bytes().len() - 2 == place)?;
        let expected = seen.iter().find(|expected| expected.place == record.place())?;
        Some((expected.name(), record.place()))
    });
    let found = shown(file, place);
    match summed {
        Some((name, begin)) => {
            let right = hex(sum(&file[begin..place]));
            Words::at(
                byte(place),
                format!("the sum there is {found}, and the bytes of {name} before it, from byte {begin}, add up to {right}"),
            )
        }
        None => Words::at(byte(place), format!("the sum there is {found}, which is not that of the bytes before it")),
    }
}

/// QUANTIZER, MODE or RANGE of a record. All records are whole, with the right marks, numbers and sums: that was tested before.
fn content(file: &[u8], word: Word) -> Words {
    let (number, place) = word.parts();
    match chroma_record(file, word) {
        Some((record, macroblock)) => chroma_content(number, &record, macroblock),
        None => match luma_record(file, place / 16) {
            Some(record) => luma_content(number, &record, layout(file).macroblock(place / 16), place % 16),
            None => words::unknown(place),
        },
    }
}

/// The chroma record that a refusal is about, with its macroblock; none if it is about a luma record. Of a chroma record the place is its
/// first byte, of a luma record 16 * macroblock + block, and one number can be both. It is then the luma record's exactly if the refusal goes
/// away with that record, so the library is asked again, of the file with a luma record there that has nothing to refuse. (Where both are at
/// fault the chroma record is told, being the first of the two: 16 bytes are fewer than a macroblock's.)
fn chroma_record(file: &[u8], word: Word) -> Option<(Record<'_>, Macroblock)> {
    let (_, place) = word.parts();
    let chroma = Records::of(file).filter(|record| record.kind() == Kind::Chroma);
    let (number, record) = (0..).zip(chroma).find(|(_, record)| record.place() as u64 == place)?;
    let layout = layout(file);
    let mut plane = layout.area(layout.samples());
    let of_luma = luma_record(file, place / 16).is_some_and(|luma| calls::decode_plane(&mended(file, &luma), &mut plane) != word);
    (!of_luma).then_some((record, layout.macroblock(number)))
}

/// A macroblock's luma record.
fn luma_record(file: &[u8], macroblock: u64) -> Option<Record<'_>> {
    let mut luma = Records::of(file).filter(|record| record.kind() != Kind::Chroma);
    luma.nth(usize::try_from(macroblock).ok()?)
}

/// The file with a plain luma record in the place of this one: QP 0, every mode DC, which needs nothing, and every level 0.
fn mended(file: &[u8], luma: &Record) -> Vec<u8> {
    let (modes, last) = (luma.modes().len().div_ceil(2), luma.bytes().len() - 2);
    let mut mended = file.to_vec();
    let record = &mut mended[luma.place()..][..last + 2];
    record[4..last].fill(0);
    // two of them in a byte, or one alone
    record[5..5 + modes].fill(if luma.kind() == Kind::Four { 0x22 } else { 2 });
    let right = sum(&record[..last]).to_be_bytes();
    record[last..].copy_from_slice(&right);
    mended
}

fn chroma_content(number: u8, record: &Record, macroblock: Macroblock) -> Words {
    let [cb, cr] = record.offsets().unwrap_or_default().map(i32::from);
    let mode = record.modes()[0];
    let wrong = match number {
        QUANTIZER if !(-12..=12).contains(&cb) => words::wrong_offset(" of Cb", cb),
        QUANTIZER => words::wrong_offset(" of Cr", cr),
        MODE => wrong_mode(mode, 3, "chroma"),
        _ => String::from("a level or a DC value of it, rescaled, is outside -32768 to 32767"),
    };
    Words::at(format!("byte {}, where the chroma record of {macroblock} begins", record.place()), wrong)
}

fn luma_content(number: u8, record: &Record, macroblock: Macroblock, block: u64) -> Words {
    let qp = record.qp().unwrap_or_default();
    let begins = format!("whose record begins at byte {}", record.place());
    let whole = record.kind() == Kind::Sixteen;
    if number == QUANTIZER || whole && number == MODE {
        let wrong = match number {
            QUANTIZER => words::wrong_qp(qp),
            _ => wrong_mode(record.modes()[0], 3, "a macroblock that is predicted as a whole"),
        };
        return Words::at(format!("{macroblock}, {begins}"), wrong);
    }
    let wrong = match (number, whole && block == 0) {
        (MODE, _) => wrong_mode(record.modes()[block as usize], 8, "a 4x4 block"),
        (_, true) => format!("a DC value of the macroblock, or a level of this block, rescaled at QP {qp}, is outside -32768 to 32767"),
        (_, false) => format!("a level of it, rescaled at QP {qp}, is outside -32768 to 32767"),
    };
    Words::at(format!("block {block} of {macroblock}, {begins}"), wrong)
}

/// A mode that is too high, or else needs samples that are missing.
fn wrong_mode(mode: u8, highest: u8, of: &str) -> String {
    if mode > highest {
        format!("the mode is {mode}, and modes of {of} are 0 to {highest}")
    } else {
        format!("mode {mode} needs samples that are outside the picture, in another slice or not yet decoded there")
    }
}
