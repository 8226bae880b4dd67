//! Incoming inspection: what is accepted, where a difference is told, and that the
//! decoder's refusals come first.

mod common;

use common::{data, form, names, refusal, LENGTH};
use reference::record::{read_head, Layout};
use reference::{code_picture, code_plane, decode_plane, inspect, Refusal};

/// The folders of outside files, and how many there are in each.
const FOLDERS: [(&str, usize); 4] = [(".", 24), ("sixteen", 20), ("slices", 16), ("colour", 17)];

fn differs(number: usize, sample: usize) -> Refusal {
    refusal(17, 256 * number + sample)
}

/// A file and the luma plane that its coder rebuilt.
struct Delivery {
    layout: Layout,
    file: Vec<u8>,
    plane: Vec<u8>,
}

impl Delivery {
    fn outside(name: &str) -> Delivery {
        let file = data(&format!("{name}.rec"));
        let layout = read_head(&file).expect("it is a record file");
        // of a colour file the chroma planes stand behind it
        let mut plane = data(&format!("{name}.plane"));
        plane.truncate(layout.samples());
        Delivery {
            layout,
            file,
            plane,
        }
    }

    /// What our own coder makes of noise.
    fn own(width: usize, height: usize, rows: usize, colour: bool) -> Delivery {
        let layout = Layout {
            width,
            height,
            rows,
        };
        let (luma, chroma) = (noise(layout.samples()), noise(layout.chroma_samples()));
        let mut file = vec![0; layout.colour_area()];
        let mut plane = vec![0; luma.len()];
        let used = if colour {
            let (mut cb, mut cr) = (chroma.clone(), chroma.clone());
            let offsets = (-3, 4);
            code_picture(
                width, height, rows, 23, offsets.0, offsets.1, &luma, &chroma, &chroma, &mut file,
                &mut plane, &mut cb, &mut cr,
            )
        } else {
            file.truncate(layout.area());
            code_plane(width, height, rows, 23, &luma, &mut file, &mut plane)
        };
        file.truncate(used.expect("it is a picture"));
        Delivery {
            layout,
            file,
            plane,
        }
    }

    fn inspected(&self) -> Result<(), Refusal> {
        inspect(&self.file, &self.plane)
    }

    /// Where a sample of a macroblock stands in the plane.
    fn at(&self, number: usize, sample: usize) -> usize {
        let width = self.layout.width;
        let (column, row) = (number % width, number / width);
        (16 * row + sample / 16) * 16 * width + 16 * column + sample % 16
    }

    /// With these samples of macroblocks other ones.
    fn with_others(&self, samples: &[(usize, usize)], by: u8) -> Result<(), Refusal> {
        let mut plane = self.plane.clone();
        for &(number, sample) in samples {
            plane[self.at(number, sample)] ^= by;
        }
        inspect(&self.file, &plane)
    }
}

/// The same in every run.
fn noise(samples: usize) -> Vec<u8> {
    let mut state = 7_u32;
    let mut next = || {
        state = state.wrapping_mul(1_664_525).wrapping_add(1_013_904_223);
        (state >> 24) as u8
    };
    (0..samples).map(|_| next()).collect()
}

#[test]
fn accepts_what_the_outside_delivers() {
    for (folder, count) in FOLDERS {
        let names = names(folder, ".rec");
        assert_eq!(names.len(), count);
        for name in names {
            let delivery = Delivery::outside(&name);
            assert_eq!(delivery.inspected(), Ok(()), "{name}");
            let last = delivery.layout.macroblocks() - 1;
            for (number, sample) in [(0, 0), (0, 255), (last / 2, 100), (last, 0), (last, 255)] {
                let other = delivery.with_others(&[(number, sample)], 1);
                assert_eq!(other, Err(differs(number, sample)), "{name}");
            }
        }
    }
}

/// "Everything our own coder writes with its rebuilt plane is accepted."
#[test]
fn accepts_what_our_coder_writes() {
    for (width, height) in [(1, 1), (1, 3), (3, 2), (2, 4)] {
        for rows in 1..=height {
            for colour in [false, true] {
                let delivery = Delivery::own(width, height, rows, colour);
                assert_eq!(delivery.inspected(), Ok(()));
            }
        }
    }
}

#[test]
fn tells_each_sample_of_a_picture() {
    for (rows, colour) in [(3, false), (2, true)] {
        let delivery = Delivery::own(3, 3, rows, colour);
        for number in 0..9 {
            for sample in 0..256 {
                for by in [1, 255] {
                    let other = delivery.with_others(&[(number, sample)], by);
                    assert_eq!(other, Err(differs(number, sample)));
                }
            }
        }
    }
}

/// The first and the last sample of a block, by the macroblock's rows: columns and
/// rows of blocks are told by every other bit of its number.
fn ends_of(block: usize) -> [usize; 2] {
    let column = block % 2 + block / 4 % 2 * 2;
    let row = block / 2 % 2 + block / 8 * 2;
    let first = 64 * row + 4 * column;
    [first, first + 3 * 16 + 3]
}

/// Of two samples the first by the macroblock's rows is told, also where the other
/// one's block comes first.
#[test]
fn goes_by_rows_and_not_by_blocks() {
    assert_eq!(ends_of(0), [0, 51]);
    assert_eq!(ends_of(3), [68, 119]);
    assert_eq!(ends_of(15), [204, 255]);
    let delivery = Delivery::own(3, 3, 3, false);
    let mut disagree = 0;
    for earlier in 0..16 {
        for later in earlier + 1..16 {
            let [_, of_earlier] = ends_of(earlier);
            let [of_later, _] = ends_of(later);
            let first = of_earlier.min(of_later);
            let other = delivery.with_others(&[(4, of_earlier), (4, of_later)], 9);
            assert_eq!(other, Err(differs(4, first)), "{earlier} and {later}");
            disagree += usize::from(first == of_later);
        }
    }
    // six in each of four rows of blocks; 2 and 3 with 4 and 5, 10 and 11 with 12 and 13
    assert_eq!(disagree, 32);
    // the last row of block 0 and the first of block 1: 48 and 4
    let other = delivery.with_others(&[(4, 48), (4, 4)], 1);
    assert_eq!(other, Err(differs(4, 4)));
    // block 2 begins in row 4, block 4 in row 0
    let other = delivery.with_others(&[(4, 64), (4, 8)], 1);
    assert_eq!(other, Err(differs(4, 8)));
}

/// Of two macroblocks the first is told, also where the other one's sample stands
/// first in the plane.
#[test]
fn goes_by_macroblocks_and_not_by_the_planes_rows() {
    let delivery = Delivery::own(3, 3, 1, true);
    for first in 0..9 {
        for second in first + 1..9 {
            for (one, other) in [(255, 0), (0, 255), (17, 17)] {
                let both = delivery.with_others(&[(second, other), (first, one)], 1);
                assert_eq!(both, Err(differs(first, one)));
            }
        }
    }
    assert!(delivery.at(1, 0) < delivery.at(0, 255));
    let all = inspect(&delivery.file, &vec![0; delivery.plane.len()]);
    let number =
        (0..9).find(|&number| (0..256).any(|at| delivery.plane[delivery.at(number, at)] != 0));
    let number = number.expect("the picture is not black");
    let sample = (0..256).find(|&sample| delivery.plane[delivery.at(number, sample)] != 0);
    assert_eq!(all, Err(differs(number, sample.expect("it has one"))));
}

/// What the decoder refuses is refused so whatever the plane holds.
#[test]
fn the_decoders_refusals_come_first() {
    let mut numbers = [0; 18];
    for name in [
        "random-01",
        "sixteen/random-02",
        "colour/random-02",
        "slices/random-06",
    ] {
        let Delivery { file, plane, .. } = Delivery::outside(name);
        let other: Vec<u8> = plane.iter().map(|sample| !sample).collect();
        let mut refused = |file: &[u8]| {
            let mut decoded = plane.clone();
            let Err(refusal) = decode_plane(file, &mut decoded) else {
                // an exchange of two bytes can leave the file a file
                let own = inspect(file, &decoded);
                assert_eq!(own, Ok(()));
                return;
            };
            assert_eq!(inspect(file, &plane), Err(refusal));
            assert_eq!(inspect(file, &other), Err(refusal));
            numbers[usize::from(refusal.number)] += 1;
        };
        for place in 0..file.len() {
            refused(&file[..place]);
            let mut changed = file.clone();
            changed[place] = !changed[place];
            refused(&changed);
            let mut exchanged = file.clone();
            exchanged.swap(place, (place + 1) % file.len());
            refused(&exchanged);
        }
    }
    for number in [2, 3, 6, 8, 9, 11, 12, 13] {
        assert!(numbers[number] > 0, "{number} never came: {numbers:?}");
    }
}

/// The plane's length is asked behind the head and before the records.
#[test]
fn the_length_of_their_plane() {
    for name in ["random-01", "colour/random-02"] {
        let Delivery { file, plane, .. } = Delivery::outside(name);
        let longer = [plane.as_slice(), &[0]].concat();
        let cut = &file[..file.len() - 1];
        for theirs in [&plane[1..], &longer, &[]] {
            assert_eq!(inspect(&file, theirs), Err(LENGTH));
            assert_eq!(inspect(cut, theirs), Err(LENGTH));
            assert_eq!(inspect(&file[..3], theirs), Err(form(0)));
        }
        assert_eq!(inspect(cut, &plane), Err(form(cut.len())));
    }
}
