//! The tasks that are timed, on a picture with its files.

use crate::arguments::Chosen;
use crate::library::Reference;
use crate::{pictures, Codec, CHROMA, SAMPLES, SIDE};
use reference::record::Layout;
use reference::{code_plane_by, Picture, Sads};
use std::time::{Duration, Instant};

const WHOLE: Layout = Layout {
    width: SIDE,
    height: SIDE,
    rows: SIDE,
};
const IN_SLICES: Layout = Layout { rows: 4, ..WHOLE };
/// Of Cb and Cr.
const OFFSETS: [i32; 2] = [-2, 3];

/// A record file with the plane that a decoder makes of it.
struct Coded {
    layout: Layout,
    file: Vec<u8>,
    rebuilt: Vec<u8>,
}

impl Coded {
    /// What the reference makes of a plane where macroblocks take 16x16 by this choice.
    fn new(takes_sixteen: fn(&Sads) -> bool, layout: Layout, qp: u8, plane: &[u8]) -> Coded {
        let (mut file, mut rebuilt) = (vec![0; layout.area()], vec![0; SAMPLES]);
        let [area, plane_too] = [&mut file, &mut rebuilt];
        let used = code_plane_by(takes_sixteen, layout, qp, plane, area, plane_too);
        file.truncate(used.expect("the sizes are right"));
        Coded {
            layout,
            file,
            rebuilt,
        }
    }

    /// How many macroblocks are 16x16: each record is 7 bytes shorter.
    fn share(&self) -> String {
        let part = (self.layout.area() - self.file.len()) as f64 / (7 * SIDE * SIDE) as f64;
        format!("{:.1} %", 100.0 * part)
    }
}

/// The same of a colour picture, whose luma is the plane.
struct Coloured {
    file: Vec<u8>,
    rebuilt: [Vec<u8>; 3],
}

/// Luma, Cb and Cr, which are lent.
fn planes() -> [Vec<u8>; 3] {
    [SAMPLES, CHROMA, CHROMA].map(|samples| vec![1; samples])
}

/// A plane with its files and the buffers that are lent.
pub struct Bench {
    qp: u8,
    plane: Vec<u8>,
    chroma: [Vec<u8>; 2],
    /// Of both kinds of records, as the coder chooses, in one slice and in many; in one slice of one kind only.
    both: Coded,
    slices: Coded,
    four: Coded,
    sixteen: Coded,
    colour: Coloured,
    area: Vec<u8>,
    rebuilt: Vec<u8>,
    decoded: Vec<u8>,
    colour_area: Vec<u8>,
    colour_rebuilt: [Vec<u8>; 3],
    colour_decoded: [Vec<u8>; 3],
}

/// A task that is timed; none for a codec that cannot do it.
type Task = fn(&mut Bench, &dyn Codec) -> Option<Duration>;

pub const CODING: &str = "coding";
pub const DECODING: &str = "decoding it";

pub const TASKS: [(&str, Task); 12] = [
    (CODING, Bench::code_own),
    (DECODING, Bench::decode_own),
    ("coding in colour", Bench::code_colour),
    ("decoding in colour", Bench::decode_colour),
    ("coding in slices", Bench::code_slices),
    ("decoding those", Bench::decode_slices),
    ("decoding 4x4 records", Bench::decode_four),
    ("decoding 16x16 records", Bench::decode_sixteen),
    ("inspecting it", Bench::inspect_own),
    ("inspecting in colour", Bench::inspect_colour),
    ("inspecting 4x4 records", Bench::inspect_four),
    ("inspecting 16x16 records", Bench::inspect_sixteen),
];

/// Tasks whose times are compared: the first divided by the second.
pub const RATIOS: [(&str, &str); 7] = [
    ("coding in colour", CODING),
    ("decoding in colour", DECODING),
    ("decoding 16x16 records", "decoding 4x4 records"),
    ("inspecting it", DECODING),
    ("inspecting in colour", "decoding in colour"),
    ("inspecting 4x4 records", "decoding 4x4 records"),
    ("inspecting 16x16 records", "decoding 16x16 records"),
];

/// The time of each task, in their order.
pub type Times = [Option<Duration>; TASKS.len()];

/// The better time of each task.
pub fn better(one: Times, other: Times) -> Times {
    std::array::from_fn(|task| one[task].into_iter().chain(other[task]).min())
}

/// The place of a task among them.
pub fn place(what: &str) -> usize {
    let place = TASKS.iter().position(|(name, _)| *name == what);
    place.expect("it is a task")
}

impl Bench {
    pub fn new(chosen: &Chosen) -> Bench {
        let (qp, plane) = (chosen.qp, (chosen.draw)());
        let mut bench = Bench {
            qp,
            chroma: pictures::chroma(&plane),
            both: Coded::new(Sads::sixteen_wins, WHOLE, qp, &plane),
            slices: Coded::new(Sads::sixteen_wins, IN_SLICES, qp, &plane),
            four: Coded::new(|_| false, WHOLE, qp, &plane),
            sixteen: Coded::new(|_| true, WHOLE, qp, &plane),
            plane,
            area: vec![1; IN_SLICES.area()],
            rebuilt: vec![1; SAMPLES],
            decoded: vec![1; SAMPLES],
            colour: Coloured {
                file: vec![],
                rebuilt: planes(),
            },
            colour_area: vec![1; WHOLE.colour_area()],
            colour_rebuilt: planes(),
            colour_decoded: planes(),
        };
        let (_, used) = bench.coded_in_colour(&Reference);
        bench.colour.file = bench.colour_area[..used].to_vec();
        bench.colour.rebuilt = bench.colour_rebuilt.clone();
        bench
    }

    /// How many of the coder's macroblocks are 16x16.
    pub fn share(&self) -> String {
        self.both.share()
    }

    /// Every task once.
    pub fn round(&mut self, codec: &dyn Codec) -> Times {
        TASKS.map(|(_, task)| task(self, codec))
    }

    /// One task once.
    pub fn time(&mut self, what: &str, codec: &dyn Codec) -> Option<Duration> {
        TASKS[place(what)].1(self, codec)
    }

    fn code_colour(&mut self, codec: &dyn Codec) -> Option<Duration> {
        if !codec.colour() {
            return None;
        }
        let (time, used) = self.coded_in_colour(codec);
        let same = self.colour_area[..used] == self.colour.file
            && self.colour_rebuilt == self.colour.rebuilt;
        assert!(same, "{} codes colour otherwise", codec.name());
        Some(time)
    }

    /// The time, and the bytes used of the area.
    fn coded_in_colour(&mut self, codec: &dyn Codec) -> (Duration, usize) {
        let [cb, cr] = &self.chroma;
        let picture = Picture {
            layout: WHOLE,
            qp: self.qp,
            offsets: OFFSETS,
            planes: [&self.plane, cb, cr],
        };
        let rebuilt = self.colour_rebuilt.each_mut().map(Vec::as_mut_slice);
        let started = Instant::now();
        let used = codec.code_picture(&picture, &mut self.colour_area, rebuilt);
        (started.elapsed(), used)
    }

    fn decode_colour(&mut self, codec: &dyn Codec) -> Option<Duration> {
        if !codec.colour() {
            return None;
        }
        let decoded = self.colour_decoded.each_mut().map(Vec::as_mut_slice);
        let started = Instant::now();
        codec.decode_picture(&self.colour.file, decoded);
        let time = started.elapsed();
        let same = self.colour_decoded == self.colour.rebuilt;
        assert!(same, "{} decodes colour otherwise", codec.name());
        Some(time)
    }

    fn code_own(&mut self, codec: &dyn Codec) -> Option<Duration> {
        let (time, used) = self.code(codec, WHOLE);
        let own = match codec.both_kinds() {
            true => &self.both,
            false => &self.four,
        };
        self.compare(codec, own, used);
        Some(time)
    }

    fn code_slices(&mut self, codec: &dyn Codec) -> Option<Duration> {
        if !codec.slices() {
            return None;
        }
        let (time, used) = self.code(codec, IN_SLICES);
        self.compare(codec, &self.slices, used);
        Some(time)
    }

    /// The time, and the bytes used of the area.
    fn code(&mut self, codec: &dyn Codec, layout: Layout) -> (Duration, usize) {
        let (area, rebuilt) = (&mut self.area[..layout.area()], &mut self.rebuilt);
        let started = Instant::now();
        let used = codec.code(layout, self.qp, &self.plane, area, rebuilt);
        (started.elapsed(), used)
    }

    /// What was coded must be this.
    fn compare(&self, codec: &dyn Codec, coded: &Coded, used: usize) {
        let same = self.area[..used] == coded.file && self.rebuilt == coded.rebuilt;
        assert!(same, "{} codes otherwise", codec.name());
    }

    fn decode_slices(&mut self, codec: &dyn Codec) -> Option<Duration> {
        codec
            .slices()
            .then(|| timed(codec, &self.slices, &mut self.decoded))
    }

    fn decode_own(&mut self, codec: &dyn Codec) -> Option<Duration> {
        match codec.both_kinds() {
            true => Some(timed(codec, &self.both, &mut self.decoded)),
            false => self.decode_four(codec),
        }
    }

    fn decode_four(&mut self, codec: &dyn Codec) -> Option<Duration> {
        Some(timed(codec, &self.four, &mut self.decoded))
    }

    fn decode_sixteen(&mut self, codec: &dyn Codec) -> Option<Duration> {
        codec
            .both_kinds()
            .then(|| timed(codec, &self.sixteen, &mut self.decoded))
    }

    fn inspect_own(&mut self, codec: &dyn Codec) -> Option<Duration> {
        inspected(codec, &self.both.file, &self.both.rebuilt)
    }

    fn inspect_colour(&mut self, codec: &dyn Codec) -> Option<Duration> {
        inspected(codec, &self.colour.file, &self.colour.rebuilt[0])
    }

    fn inspect_four(&mut self, codec: &dyn Codec) -> Option<Duration> {
        inspected(codec, &self.four.file, &self.four.rebuilt)
    }

    fn inspect_sixteen(&mut self, codec: &dyn Codec) -> Option<Duration> {
        inspected(codec, &self.sixteen.file, &self.sixteen.rebuilt)
    }
}

/// Decodes a file, which must give its plane.
fn timed(codec: &dyn Codec, coded: &Coded, decoded: &mut [u8]) -> Duration {
    let started = Instant::now();
    codec.decode(&coded.file, decoded);
    let time = started.elapsed();
    assert!(
        decoded == coded.rebuilt,
        "{} decodes otherwise",
        codec.name()
    );
    time
}

/// Inspects a file with its own plane, which must be accepted.
fn inspected(codec: &dyn Codec, file: &[u8], theirs: &[u8]) -> Option<Duration> {
    if !codec.inspections() {
        return None;
    }
    let started = Instant::now();
    codec.inspect(file, theirs);
    Some(started.elapsed())
}
