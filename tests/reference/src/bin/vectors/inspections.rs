//! Incoming inspection: files with the planes that a decoder makes of them, and with others.

use crate::pictures::{self, first_refused};
use crate::planes::{changed, head, mended, names, outside};
use crate::request::{with, wrong_lengths};
use reference::calls::Argument::{self, Bytes};
use reference::record::{read_head, Head};

/// The outside's file and luma plane, which stands first where the file is colour.
fn delivered(name: &str) -> Vec<Argument> {
    let file = outside(name, "rec");
    let layout = read_head(&file).expect("it is a record file");
    let plane = outside(name, "plane")[..layout.samples()].to_vec();
    vec![Bytes(file), Bytes(plane)]
}

pub fn inspect() -> Vec<Vec<Argument>> {
    let folders = [".", "sixteen", "slices", "colour"];
    let names = folders.map(|folder| names(folder, "rec")).concat();
    let accepted = names.iter().map(|name| {
        let request = delivered(name);
        let answer = reference::calls::inspect(&mut request.clone());
        assert_eq!(answer, Ok(0), "{name}: the outside has another answer");
        request
    });
    [
        accepted.collect(),
        every_sample("sixteen/random-02"),
        every_sample("colour/random-02"),
        two_samples("slices/random-06"),
        lengths(),
        refused("random-04"),
        refused("colour/random-02"),
        contents(),
    ]
    .concat()
}

fn plane_of(request: &[Argument]) -> &[u8] {
    let Bytes(plane) = &request[1] else {
        unreachable!()
    };
    plane
}

/// With another plane, of which these samples are changed.
fn with_others(request: &[Argument], places: &[usize]) -> Vec<Argument> {
    let mut plane = plane_of(request).to_vec();
    places.iter().for_each(|&place| plane[place] ^= 1);
    with(request, 1, Bytes(plane))
}

/// An outside delivery with each sample changed in turn.
fn every_sample(name: &str) -> Vec<Vec<Argument>> {
    let good = delivered(name);
    let places = 0..plane_of(&good).len();
    places.map(|place| with_others(&good, &[place])).collect()
}

/// With two samples changed: of one macroblock, the first by its rows in a later block than the other; of two macroblocks, the first by the
/// plane's rows in the later one; and with all changed.
fn two_samples(name: &str) -> Vec<Vec<Argument>> {
    let good = delivered(name);
    let Bytes(file) = &good[0] else {
        unreachable!()
    };
    let layout = read_head(file).expect("it is a record file");
    let stride = 16 * layout.width;
    let at = |x: usize, y: usize| stride * y + x;
    let in_one = [
        [at(0, 3), at(4, 0)],
        [at(3, 3), at(4, 0)],
        [at(0, 4), at(8, 0)],
        [at(7, 7), at(8, 3)],
        [at(0, 12), at(8, 8)],
    ];
    let in_two = [
        [at(15, 15), at(16, 0)],
        [at(0, 15), at(31, 0)],
        [at(16, 15), at(0, 16)],
        [at(31, 15), at(0, 47)],
    ];
    let all: Vec<usize> = (0..layout.samples()).collect();
    let two = in_one.iter().chain(&in_two);
    let two = two.map(|places| with_others(&good, places));
    two.chain([with_others(&good, &all)]).collect()
}

/// Both slices one short, one long and empty; the plane so where the head, a mark or a QP is wrong too.
fn lengths() -> Vec<Vec<Argument>> {
    let of = |name: &str| {
        let good = delivered(name);
        let Bytes(file) = &good[0] else {
            unreachable!()
        };
        let first = Head::of(file).expect("it is a record file").bytes();
        let files = [
            changed(file, first - 1, !file[first - 1]),
            file[..3].to_vec(),
            changed(file, first, 0),
            changed(file, first + 4, 255),
        ];
        let worse = files.map(|file| wrong_lengths(&with(&good, 0, Bytes(file))));
        [wrong_lengths(&good), worse.concat()].concat()
    };
    ["random-01", "colour/random-01"].map(of).concat()
}

/// A delivery with each byte of its file complemented, cut to each length, and with each byte exchanged for the next one, which a sum does
/// not show; with the plane of the whole file, and with one that differs from its first sample on.
fn refused(name: &str) -> Vec<Vec<Argument>> {
    let good = delivered(name);
    let Bytes(file) = &good[0] else {
        unreachable!()
    };
    let other = with_others(&good, &[0]);
    let places = (0..file.len()).flat_map(|place| {
        let mut exchanged = file.clone();
        exchanged.swap(place, (place + 1) % file.len());
        let all = [
            changed(file, place, !file[place]),
            file[..place].to_vec(),
            exchanged,
        ];
        let plane = if place % 2 == 0 { &good } else { &other };
        all.map(|file| with(plane, 0, Bytes(file)))
    });
    first_refused(reference::calls::inspect, places)
}

/// Files whose content a decoder refuses, whatever the plane holds; and sizes that are none.
fn contents() -> Vec<Vec<Argument>> {
    let sizes = [[0, 1], [1, 0], [129, 1], [1, 129]].map(|[width, height]| head(width, height));
    let good = outside("sixteen/random-01", "rec");
    let layout = read_head(&good).expect("it is a record file");
    let of_head = Head::of(&good).expect("it is a record file").bytes();
    let record = |place: usize, byte: u8| {
        let kind = if good[of_head + 1] == b'6' { 520 } else { 527 };
        let (own, behind) = good[of_head..].split_at(kind);
        let own = mended(changed(own, place, byte));
        [&good[..of_head], &own, behind].concat()
    };
    let files = [(4, 52), (4, 255), (5, 255), (13, 127), (300, 128)];
    let files = files.map(|(place, byte)| record(place, byte));
    let files = files.into_iter().chain(sizes);
    let colour = pictures::refused_files().into_iter();
    let with_plane = |file: Vec<u8>| {
        let layout = read_head(&file).unwrap_or(layout);
        vec![Bytes(file), Bytes(vec![90; layout.samples()])]
    };
    let requests = files.chain(colour).map(with_plane);
    first_refused(reference::calls::inspect, requests)
}
