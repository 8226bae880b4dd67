//! Why the layout of a file is refused, each reason by itself: told by the word and the bytes of the file, and not by the reference.

use crate::files::records;
use crate::named::{Told, FORM, MARK, NUMBER, SUM};
use reference::record::{Head, Kind};

const SHORT_HEAD: &str = "short head";
const HEAD_MARK: &str = "mark of the head";
const HEAD_SUM: &str = "sum of the head";
const CUT_MARK: &str = "file cut in a mark";
const CUT_RECORD: &str = "file cut behind a mark";
const SURPLUS: &str = "bytes behind the last record";
const RECORD_MARK: &str = "mark of a record";
const RECORD_NUMBER: &str = "number of a record";
const RECORD_SUM: &str = "sum of a record";

pub const ALL: [&str; 9] = [
    SHORT_HEAD,
    HEAD_MARK,
    HEAD_SUM,
    CUT_MARK,
    CUT_RECORD,
    SURPLUS,
    RECORD_MARK,
    RECORD_NUMBER,
    RECORD_SUM,
];

/// The reason that a word has for a file, if it is one of these and in its place.
pub fn of((number, place): Told, file: &[u8]) -> Option<&'static str> {
    let head = Head::of(file);
    match (number, head) {
        (FORM, None) => (place == 0 && file.len() < 2).then_some(SHORT_HEAD),
        (FORM, Some(head)) if file.len() < head.bytes() => (place == 0).then_some(SHORT_HEAD),
        (FORM, Some(_)) => (place == file.len()).then(|| of_length(file)),
        (MARK, None) => (place == 0 && file.len() >= 2).then_some(HEAD_MARK),
        (SUM, Some(head)) if place == head.bytes() - 2 => Some(HEAD_SUM),
        (MARK, Some(_)) => Some(RECORD_MARK),
        (NUMBER, Some(_)) => Some(RECORD_NUMBER),
        (SUM, Some(_)) => Some(RECORD_SUM),
        _ => None,
    }
}

/// Of a file whose head is whole, and which is too short or too long. It is colour if a chroma mark stands behind its first record.
fn of_length(file: &[u8]) -> &'static str {
    let field = |at: usize| usize::from(u16::from_be_bytes([file[at], file[at + 1]]));
    let macroblocks = field(2) * field(4);
    let records = records(file);
    let end = |(first, kind): &(usize, Kind)| first + kind.bytes();
    let behind_first = records.first().map_or(&[][..], |it| &file[end(it)..]);
    let all = match behind_first.starts_with(&Kind::Chroma.mark()) {
        true => 2 * macroblocks,
        false => macroblocks,
    };
    let head = Head::of(file).map_or(0, Head::bytes);
    let rest = file.len() - records.last().map_or(head, end);
    match rest {
        _ if records.len() >= all => SURPLUS,
        0 | 1 => CUT_MARK,
        _ => CUT_RECORD,
    }
}

#[cfg(test)]
mod tests {
    use super::*;
    use crate::files::listed_wholes;
    use reference::{decode_plane, Refusal};

    fn reason(file: &[u8]) -> Option<&'static str> {
        let answer = decode_plane(file, &mut [0; 1024]);
        let Refusal { number, place } = answer.expect_err("it is broken");
        of((number.into(), place as usize), file)
    }

    #[test]
    fn each_reason_is_told() {
        for whole in listed_wholes() {
            let (file, name) = (&whole.file, whole.name);
            let head = Head::of(file).unwrap().bytes();
            let changed = |place: usize| {
                let mut file = file.clone();
                file[place] ^= 0x40;
                reason(&file)
            };
            for length in 0..file.len() {
                let expected = match records(file).iter().rev().find(|it| it.0 <= length) {
                    None => SHORT_HEAD,
                    Some((first, _)) if length < first + 2 => CUT_MARK,
                    Some(_) => CUT_RECORD,
                };
                assert_eq!(reason(&file[..length]), Some(expected), "{name}, {length}");
            }
            for more in [vec![0], b"MB".to_vec(), file[head..].to_vec()] {
                assert_eq!(reason(&[file.clone(), more].concat()), Some(SURPLUS));
            }
            assert_eq!(changed(0), Some(HEAD_MARK));
            assert_eq!(changed(head - 1), Some(HEAD_SUM));
            for (first, kind) in records(file) {
                assert_eq!(changed(first), Some(RECORD_MARK));
                assert_eq!(changed(first + 3), Some(RECORD_NUMBER));
                assert_eq!(changed(first + kind.bytes() - 1), Some(RECORD_SUM));
            }
        }
    }

    /// The chroma record of the only macroblock tells that the file is colour by its mark, and by nothing less.
    #[test]
    fn a_cut_chroma_record_is_no_surplus() {
        let colour = crate::named::named().iter();
        let mut colour = colour.filter(|it| it.layout.macroblocks() == 1 && it.told == (0, 1));
        let whole = &colour.next().expect("there is one").file;
        let chroma = whole.len() - Kind::Chroma.bytes();
        let of = |length: usize| of((FORM, length), &whole[..length]);
        assert_eq!(of(chroma + 1), Some(SURPLUS));
        assert!((chroma + 2..whole.len()).all(|length| of(length) == Some(CUT_RECORD)));
    }
}
