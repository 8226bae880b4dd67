//! Arguments of the inspection: deliveries, which are files with the planes that a decoder makes of them; planes that differ from these;
//! and files that a decoder refuses, with planes of either kind. Those that have names come with the number and the place of the word that
//! they must come to: these are told by the fields of a file and the samples that are changed, and not by the reference.

use crate::files::{damage, largest_files, listed_wholes, mend, records, small_files};
use crate::limits;
use crate::named::{self, Told, DIFFERS, FORM, MARK, MODE, NUMBER, QUANTIZER, RANGE, SIZE, SUM};
use crate::planes::held;
use crate::random::Random;
use crate::request::Argument::{self, Bytes};
use crate::sizes::{self, Pair};
use reference::decode_plane;
use reference::record::{read_head, Head, Kind, Layout};
use std::collections::HashMap;
use std::sync::OnceLock;

/// Every sample of two pictures changed, then those that have names, then drawn ones, and four of the largest last.
pub const CASES: usize = 120_000;

const ACCEPTED: Told = (0, 0);
const LENGTH: Told = (1, 0);

/// A file and the plane that is delivered with it.
#[derive(Clone)]
pub struct Delivery {
    pub file: Vec<u8>,
    pub theirs: Vec<u8>,
}

impl Delivery {
    /// A whole file with the plane that a decoder makes of it.
    fn of(file: Vec<u8>) -> Delivery {
        let layout = read_head(&file).expect("it is whole");
        let mut theirs = vec![0; layout.samples()];
        decode_plane(&file, &mut theirs).expect("it is whole");
        Delivery { file, theirs }
    }

    /// The same with other samples at these places of macroblocks.
    fn with_others(&self, width: usize, samples: &[(usize, usize)], by: u8) -> Delivery {
        let mut other = self.clone();
        for &(number, sample) in samples {
            other.theirs[place_of(width, number, sample)] ^= by;
        }
        other
    }

    /// The same with every sample another.
    fn complemented(&self) -> Delivery {
        Delivery {
            file: self.file.clone(),
            theirs: self.theirs.iter().map(|sample| !sample).collect(),
        }
    }
}

/// Where a sample of a macroblock stands in a plane that is so many macroblocks wide.
pub fn place_of(width: usize, number: usize, sample: usize) -> usize {
    let (column, row) = (number % width, number / width);
    (16 * row + sample / 16) * 16 * width + 16 * column + sample % 16
}

pub fn inspect(random: &mut Random, case: usize) -> Vec<Argument> {
    let largest = case.checked_sub(CASES - 2 * largest_files().len());
    let delivery = match (largest, case.checked_sub(POSITIONS)) {
        (Some(which), _) => largest_delivery(which),
        (_, None) => position(case),
        (_, Some(number)) => match named().get(number) {
            Some(named) => named.delivery.clone(),
            None => drawn(random),
        },
    };
    vec![Bytes(delivery.file), Bytes(delivery.theirs)]
}

// ---- every sample

/// How a sample is changed.
pub const WAYS: [u8; 2] = [1, 255];

/// Of the two pictures every sample, each way.
const POSITIONS: usize = 2 * 2 * 9 * 256;

/// Of 3x3 macroblocks: mono in one slice, and in colour in slices of two rows.
pub fn pictures() -> &'static [Delivery; 2] {
    static PICTURES: OnceLock<[Delivery; 2]> = OnceLock::new();
    PICTURES.get_or_init(|| {
        let mut random = Random::new(0x3B3);
        [(3, false), (2, true)].map(|(rows, colour)| {
            let layout = Layout {
                width: 3,
                height: 3,
                rows,
            };
            Delivery::of(crate::files::coded(&mut random, layout, 21, colour))
        })
    })
}

fn position(case: usize) -> Delivery {
    let (sample, number) = (case % 256, case / 256 % 9);
    let (way, picture) = (case / 2304 % 2, case / 4608);
    pictures()[picture].with_others(3, &[(number, sample)], WAYS[way])
}

// ---- deliveries that have names

pub struct Named {
    pub name: String,
    pub delivery: Delivery,
    pub told: Told,
}

/// Made once.
pub fn named() -> &'static [Named] {
    static NAMED: OnceLock<Vec<Named>> = OnceLock::new();
    NAMED.get_or_init(|| {
        let wholes = listed_wholes();
        let deliveries = wholes
            .each_ref()
            .map(|whole| Delivery::of(whole.file.clone()));
        let mut named = vec![];
        for (whole, delivery) in wholes.iter().zip(&deliveries) {
            let mut of = |what: String, delivery: Delivery, told: Told| {
                let name = format!("{what}, the listed file {}", whole.name);
                named.push(Named {
                    name,
                    delivery,
                    told,
                });
            };
            differences(delivery, &mut of);
            refusals(delivery, &mut of);
            lengths(delivery, &mut of);
        }
        named.extend(exchanged(wholes.each_ref().map(|it| it.name), &deliveries));
        named.extend(sizes::pairs().iter().flat_map(of_size));
        named.extend(limits::files().into_iter().map(at_limit));
        named
    })
}

/// The names that a delivery has.
pub fn names_of(file: &[u8], theirs: &[u8]) -> Vec<&'static str> {
    static BY_FILE: OnceLock<HashMap<&[u8], Vec<&Named>>> = OnceLock::new();
    let by_file = BY_FILE.get_or_init(|| {
        let mut by_file: HashMap<&[u8], Vec<&Named>> = HashMap::new();
        for named in named() {
            by_file.entry(&named.delivery.file).or_default().push(named);
        }
        by_file
    });
    let of_file = by_file.get(file).into_iter().flatten();
    let named = of_file.filter(|named| named.delivery.theirs == theirs);
    named.map(|named| named.name.as_str()).collect()
}

type Push<'a> = &'a mut dyn FnMut(String, Delivery, Told);

/// A delivery as it is; with one sample of each macroblock changed; with two of one macroblock, and of two, of which the first is told; with
/// all. All of these are of 2x2 macroblocks.
fn differences(delivery: &Delivery, of: Push) {
    let told = |number: usize, sample: usize| (DIFFERS, 256 * number + sample);
    of("a delivery".to_owned(), delivery.clone(), ACCEPTED);
    let complemented = delivery.complemented();
    of("every sample another".to_owned(), complemented, told(0, 0));
    for number in 0..4 {
        for sample in [0, 1, 15, 16, 100, 239, 240, 254, 255] {
            let what = format!("sample {sample} of macroblock {number} another");
            let other = delivery.with_others(2, &[(number, sample)], 1);
            of(what, other, told(number, sample));
        }
        for (earlier, later) in disagreeing() {
            let what = format!("samples {earlier} and {later} of macroblock {number} others");
            let other = delivery.with_others(2, &[(number, earlier), (number, later)], 1);
            of(what, other, told(number, later));
        }
        for second in number + 1..4 {
            for (one, other) in [(255, 0), (0, 255), (77, 77)] {
                let both = [(number, one), (second, other)];
                let what = format!("samples {both:?} of macroblocks others");
                of(what, delivery.with_others(2, &both, 1), told(number, one));
            }
        }
    }
    // chroma is not compared
    let chroma = records(&delivery.file);
    for &(first, kind) in chroma.iter().filter(|(_, kind)| *kind == Kind::Chroma) {
        let mut other = delivery.clone();
        let record = &mut other.file[first..first + kind.bytes()];
        record[8] ^= 1;
        mend(record);
        of(
            format!("another chroma level at {}", first + 8),
            other,
            ACCEPTED,
        );
    }
}

/// Samples of two blocks, the last of the one with the lower number and the first of the other, where the second comes first by the rows of
/// the macroblock.
fn disagreeing() -> Vec<(usize, usize)> {
    // columns and rows of blocks are told by every other bit of their numbers
    let first = |block: usize| {
        let (column, row) = (block % 2 + block / 4 % 2 * 2, block / 2 % 2 + block / 8 * 2);
        64 * row + 4 * column
    };
    let pairs = (0..16).flat_map(|earlier| (earlier + 1..16).map(move |later| (earlier, later)));
    pairs
        .map(|(earlier, later)| (first(earlier) + 3 * 16 + 3, first(later)))
        .filter(|(of_earlier, of_later)| of_later < of_earlier)
        .collect()
}

/// What the decoder refuses, with the plane that would be right and with one of which every sample is another.
fn refusals(delivery: &Delivery, of: Push) {
    for (what, file, told) in broken(&delivery.file) {
        let right = Delivery {
            file,
            theirs: delivery.theirs.clone(),
        };
        of(
            format!("{what} with another plane"),
            right.complemented(),
            told,
        );
        of(format!("{what} with the right plane"), right, told);
    }
}

/// A whole file broken in each way, with what it is refused by.
fn broken(whole: &[u8]) -> Vec<(String, Vec<u8>, Told)> {
    let head = Head::of(whole).expect("it is whole").bytes();
    let changed = |own: std::ops::Range<usize>, place: usize, bytes: &[u8], mended: bool| {
        let mut file = whole.to_vec();
        file[own.start + place..][..bytes.len()].copy_from_slice(bytes);
        if mended {
            mend(&mut file[own]);
        }
        file
    };
    let mut all = vec![];
    let mut of = |what: String, file: Vec<u8>, told: Told| all.push((what, file, told));
    let length = whole.len();
    of(
        "a cut file".to_owned(),
        whole[..length - 1].to_vec(),
        (FORM, length - 1),
    );
    of("a cut head".to_owned(), whole[..3].to_vec(), (FORM, 0));
    let longer = [whole, &[0]].concat();
    of("a longer file".to_owned(), longer, (FORM, length + 1));
    of(
        "a width of 0".to_owned(),
        changed(0..head, 2, &[0, 0], true),
        (SIZE, 0),
    );
    of(
        "another mark".to_owned(),
        changed(0..head, 1, b"X", true),
        (MARK, 0),
    );
    of(
        "a head's sum".to_owned(),
        changed(0..head, head - 1, &[!whole[head - 1]], false),
        (SUM, head - 2),
    );
    let mut macroblock = 0;
    for (first, kind) in records(whole) {
        let own = first..first + kind.bytes();
        let sum = kind.bytes() - 2;
        let mut field = |what: &str, place: usize, bytes: &[u8], mended: bool, told: Told| {
            let file = changed(own.clone(), place, bytes, mended);
            of(format!("{what} in the record at {first}"), file, told);
        };
        field("a mark", 1, b"X", true, (MARK, first));
        field("a number", 3, &[9], true, (NUMBER, first + 2));
        field(
            "a sum",
            sum,
            &[!whole[own.end - 2]],
            false,
            (SUM, first + sum),
        );
        let at = |block: usize| match kind {
            Kind::Chroma => first,
            _ => 16 * macroblock + block,
        };
        let most = i16::MAX.to_be_bytes();
        match kind {
            Kind::Four => {
                field("a QP of 52", 4, &[52], true, (QUANTIZER, at(0)));
                field("a mode of 15", 5, &[255], true, (MODE, at(0)));
                field("a level", 13 + 32 * 5, &most, true, (RANGE, at(5)));
            }
            Kind::Sixteen => {
                field("a QP of 52", 4, &[52], true, (QUANTIZER, at(0)));
                field("a mode of 4", 5, &[4], true, (MODE, at(0)));
                field("a level", 6 + 32 + 30 * 5, &most, true, (RANGE, at(5)));
            }
            Kind::Chroma => {
                field("an offset of 13", 4, &[13], true, (QUANTIZER, at(0)));
                field("a mode of 4", 6, &[4], true, (MODE, at(0)));
                field("a level", 7, &most, true, (RANGE, at(0)));
            }
        }
        // luma comes before chroma
        let next = whole.get(own.end..own.end + 2);
        macroblock += usize::from(next != Some(&Kind::Chroma.mark()));
    }
    all
}

/// Planes of other lengths: they are asked behind the head, and before the records.
fn lengths(delivery: &Delivery, of: Push) {
    let head = Head::of(&delivery.file).expect("it is whole").bytes();
    let (theirs, file) = (&delivery.theirs, &delivery.file);
    let short = theirs[1..].to_vec();
    let long = [theirs.as_slice(), &[0]].concat();
    let wrong = [("short", short), ("long", long), ("empty", vec![])];
    for (what, theirs) in wrong {
        let with = |file: Vec<u8>| Delivery {
            file,
            theirs: theirs.clone(),
        };
        of(
            format!("a plane that is {what}"),
            with(file.clone()),
            LENGTH,
        );
        for (broken, file, (number, place)) in broken(file) {
            // what is wrong in the head comes before
            let in_head =
                number == SIZE || place + 2 <= head && [FORM, MARK, SUM].contains(&number);
            let told = if in_head { (number, place) } else { LENGTH };
            of(
                format!("a plane that is {what} and {broken}"),
                with(file),
                told,
            );
        }
    }
}

/// Each listed file with each other one's plane.
fn exchanged(names: [&str; 4], deliveries: &[Delivery; 4]) -> Vec<Named> {
    let mut named = vec![];
    for (name, delivery) in names.into_iter().zip(deliveries) {
        for (other_name, other) in names.into_iter().zip(deliveries) {
            if let Some((number, sample)) = unlike(2, &delivery.theirs, &other.theirs).first() {
                named.push(Named {
                    name: format!("the listed file {name} and the plane of that {other_name}"),
                    delivery: Delivery {
                        file: delivery.file.clone(),
                        theirs: other.theirs.clone(),
                    },
                    told: (DIFFERS, 256 * number + sample),
                });
            }
        }
    }
    assert!(!named.is_empty(), "the listed files have one plane");
    named
}

/// A file that is accepted or refused by RANGE at its limit, with its plane; one that has none comes with some other.
fn at_limit(file: named::Named) -> Named {
    let mut theirs = vec![77; file.layout.samples()];
    let plane = decode_plane(&file.file, &mut theirs);
    assert_eq!(plane.is_ok(), file.told == ACCEPTED, "{}", file.name);
    Named {
        name: file.name,
        told: file.told,
        delivery: Delivery {
            file: file.file,
            theirs,
        },
    }
}

/// A picture of another size as it is delivered, with its last sample another, and with its last record refused.
fn of_size(pair: &Pair) -> [Named; 3] {
    let right = Delivery::of(pair.whole.file.clone());
    let layout = pair.whole.layout;
    let last = layout.macroblocks() - 1;
    let other = right.with_others(layout.width, &[(last, 255)], 1);
    let refused = Delivery {
        file: pair.refused.file.clone(),
        theirs: right.theirs.clone(),
    };
    let name = &pair.whole.name;
    [
        Named {
            name: format!("{name} with its plane"),
            delivery: right,
            told: ACCEPTED,
        },
        Named {
            name: format!("{name} with its last sample another"),
            delivery: other,
            told: (DIFFERS, 256 * last + 255),
        },
        Named {
            name: pair.refused.name.clone(),
            delivery: refused,
            told: pair.refused.told,
        },
    ]
}

/// The samples in which two planes differ, macroblock after macroblock and row after row.
pub fn unlike(width: usize, one: &[u8], other: &[u8]) -> Vec<(usize, usize)> {
    let numbers = 0..one.len() / 256;
    let samples = numbers.flat_map(|number| (0..256).map(move |sample| (number, sample)));
    let differs = |&(number, sample): &(usize, usize)| {
        let place = place_of(width, number, sample);
        one[place] != other[place]
    };
    samples.filter(differs).collect()
}

// ---- the largest, and drawn ones

/// As they are delivered, and with their last sample another.
fn largest_delivery(which: usize) -> Delivery {
    static LARGEST: OnceLock<Vec<Delivery>> = OnceLock::new();
    let all = LARGEST.get_or_init(|| {
        let files = largest_files().iter();
        files.map(|(file, _)| Delivery::of(file.clone())).collect()
    });
    let mut delivery = all[which / 2].clone();
    if which % 2 == 1 {
        *delivery.theirs.last_mut().expect("it is no empty plane") ^= 1;
    }
    delivery
}

/// A small file, damaged or not, with its plane, one that differs in few samples, in all or in anything, or one of another length.
fn drawn(random: &mut Random) -> Delivery {
    let files = small_files();
    let mut file = files[random.below(files.len())].clone();
    let layout = read_head(&file).expect("it is whole yet");
    for _ in 0..random.of(&[0, 0, 1, 1, 2]) {
        damage(random, &mut file);
    }
    let mut theirs = vec![0; layout.samples()];
    if decode_plane(&file, &mut theirs).is_err() && random.once_in(2) {
        theirs = held(random, theirs.len());
    }
    match random.below(8) {
        0 => theirs = held(random, theirs.len()),
        1..5 => {
            let samples = random.of(&[1, 1, 2, 3, 40]);
            let near = random.below(theirs.len());
            for _ in 0..samples {
                let place = match random.once_in(2) {
                    true => random.below(theirs.len()),
                    false => (near + random.below(40)) % theirs.len(),
                };
                theirs[place] ^= 1 << random.below(8);
            }
        }
        _ => {}
    }
    if random.once_in(20) {
        let length = theirs.len();
        theirs.resize(random.of(&[length - 1, length + 1, 0, length + 256]), 7);
    }
    Delivery { file, theirs }
}
