//! Kinds of cases that must come beside the outcomes: what the coder chose and left, and what a head or a file was read as or refused for.

use crate::files::{listed_head, listed_wholes, other_values, records, refused_largest, Whole};
use crate::inspection_kinds;
use crate::limits;
use crate::named::{self, Named, Told, FORM, MARK, NUMBER, SUM};
use crate::picture_kinds;
use crate::reasons;
use crate::request::Argument::{self, Bytes, Number};
use crate::sizes;
use reference::extremes::dc_edges;
use reference::record::{self, Broken, Fault, Head, Kind, Layout, Luma, Macroblock, Sixteen};
use reference::{code_plane_by, rebuild_with_dc, rescaled_luma_dc, Sads};

/// Those that must come for a function, each at least once.
pub fn required(function: &str) -> Vec<String> {
    match function {
        "fb_code_plane" => required_of_coding(),
        "fb_read_head" => required_of_heads(),
        "fb_decode_plane" => required_of_decoding(false),
        "fb_code_picture" => picture_kinds::required_of_coding(),
        "fb_decode_picture" => {
            let lengths = picture_kinds::required_lengths();
            [required_of_decoding(true), lengths].concat()
        }
        "fb_inspect" => inspection_kinds::required(),
        "fb_quality_sheet" => sizes::required_of_sheets(),
        _ => {
            let limits = limits::of(function).iter();
            limits.map(|it| told(it.name.clone(), it.told)).collect()
        }
    }
}

/// Those of them of which it is told how often each came.
pub fn counted(function: &str) -> &'static [&'static str] {
    match function {
        "fb_decode_plane" | "fb_decode_picture" | "fb_inspect" => &reasons::ALL,
        _ => &[],
    }
}

/// Those that a call is of, by its word and its arguments at exit.
pub fn of(function: &str, word: u64, arguments: &[Argument]) -> Vec<String> {
    match function {
        "fb_code_plane" => of_coding(word, arguments),
        "fb_read_head" => of_reading(word, arguments),
        "fb_decode_plane" => of_decoding(word, arguments),
        "fb_code_picture" => picture_kinds::of_coding(word, arguments),
        "fb_decode_picture" => {
            let lengths = picture_kinds::of_lengths(word, arguments);
            [of_decoding(word, arguments), lengths].concat()
        }
        "fb_inspect" => inspection_kinds::of(word, arguments),
        "fb_quality_sheet" => of_sheet(word, arguments),
        _ => {
            let name = limits::name_of(function, arguments);
            let told = name.map(|name| told(name.to_owned(), parts(word)));
            told.into_iter().collect()
        }
    }
}

fn of_sheet(word: u64, arguments: &[Argument]) -> Vec<String> {
    let [Number(width), Number(height), ..] = arguments else {
        unreachable!()
    };
    let kind = sizes::of_sheet(word, *width as usize, *height as usize);
    kind.into_iter().collect()
}

// ---- slices

/// Rows that are refused.
pub const BAD_ROWS: [&str; 3] = [
    "slices of 0 rows",
    "slices of one row more than the height",
    "slices of 65535 rows",
];
const SHORTER: &str = "a last slice that is shorter";

fn in_slices(height: usize, rows: usize) -> String {
    format!("{height} rows in slices of {rows}")
}

/// Every number of rows up to this height.
pub fn every_slicing(height: usize) -> impl Iterator<Item = String> {
    let of = |height| (1..=height).map(move |rows| in_slices(height, rows));
    (1..=height)
        .flat_map(of)
        .chain([SHORTER].map(str::to_owned))
}

pub fn of_slicing(layout: Layout) -> Vec<String> {
    let shorter = !layout.height.is_multiple_of(layout.rows);
    let named = shorter.then(|| SHORTER.to_owned());
    let slicing = in_slices(layout.height, layout.rows);
    [slicing].into_iter().chain(named).collect()
}

/// Of numbers that are refused by SIZE.
pub fn of_bad_rows(layout: Layout) -> Vec<String> {
    let side = 1..=128;
    if !side.contains(&layout.width) || !side.contains(&layout.height) {
        return vec![];
    }
    let bad = [0, layout.height + 1, 65535];
    let named = BAD_ROWS.iter().zip(bad);
    let named = named.filter(|&(_, rows)| rows == layout.rows);
    named.map(|(name, _)| name.to_string()).collect()
}

// ---- coding

pub const REST: &str = "the rest of the area keeps its bytes";
const TIE: &str = "the least SAD of 16x16 is the sum of the 4x4 SADs";
const TIE_OF_MODES: &str = "16x16 wins by two modes alike";
pub const JUST_USED: &str = "an area of just the bytes that would be used";

pub fn coded(mode: u8) -> String {
    format!("a macroblock coded by mode {mode} of 16x16")
}

pub fn other_area(head: Head) -> String {
    format!("an area for the other head than the {head:?} one")
}

fn required_of_coding() -> Vec<String> {
    let named = [REST, TIE, TIE_OF_MODES, JUST_USED];
    let named = named.into_iter().chain(BAD_ROWS).map(str::to_owned);
    (0..4)
        .map(coded)
        .chain(named)
        .chain(Head::ALL.map(other_area))
        .chain(every_slicing(5))
        .chain(sizes::required_of_coding())
        .collect()
}

/// Codes once more, to see the choices.
fn of_coding(word: u64, arguments: &[Argument]) -> Vec<String> {
    let [Number(width), Number(height), Number(rows), Number(qp), Bytes(plane), Bytes(area), _] =
        arguments
    else {
        unreachable!()
    };
    let [width, height, rows] = [width, height, rows].map(|number| *number as usize);
    let layout = Layout {
        width,
        height,
        rows,
    };
    // LENGTH comes behind SIZE, so that the size is one.
    match word % 256 {
        0 | 1 => {}
        8 => return of_bad_rows(layout),
        _ => return sizes::of_coding(word, layout).into_iter().collect(),
    }
    let mut kinds = vec![];
    let watched = |sads: &Sads| {
        kinds.extend(of_choice(sads));
        sads.sixteen_wins()
    };
    let mut file = vec![0; layout.area()];
    let mut rebuilt = vec![0; plane.len()];
    let used = code_plane_by(watched, layout, *qp as u8, plane, &mut file, &mut rebuilt);
    match (used, word % 256) {
        (Ok(used), 0) => {
            kinds.extend(of_slicing(layout));
            kinds.extend(sizes::of_coding(word, layout));
            kinds.extend((used < area.len()).then(|| REST.to_owned()));
            kinds
        }
        (Ok(used), _) => of_area(layout, used, area.len()),
        _ => vec![],
    }
}

/// Of a call that is refused by LENGTH.
fn of_area(layout: Layout, used: usize, lent: usize) -> Vec<String> {
    let just = used < layout.area() && used == lent;
    let records = layout.area() - layout.head().bytes();
    let other = lent != layout.area() && Head::ALL.iter().any(|it| it.bytes() + records == lent);
    let just = just.then(|| JUST_USED.to_owned());
    just.into_iter()
        .chain(other.then(|| other_area(layout.head())))
        .collect()
}

pub fn of_choice(sads: &Sads) -> Vec<String> {
    let (least, mode) = sads.best_sixteen();
    let mut kinds = vec![];
    if least == sads.four {
        kinds.push(TIE.to_owned());
    }
    if sads.sixteen_wins() {
        kinds.push(coded(mode));
        let modes = sads.sixteen.iter().filter(|&&sad| sad == Some(least));
        kinds.extend((modes.count() > 1).then(|| TIE_OF_MODES.to_owned()));
    }
    kinds
}

// ---- what is broken in a file (request 03)

pub fn told(what: String, (number, place): Told) -> String {
    format!("{what}: {number} at {place}")
}

/// What a whole file is refused by where one byte is another: a mark and a number by themselves, and whatever else by the sum.
fn of_another_byte(whole: &[u8], place: usize) -> Told {
    let head = Head::of(whole).expect("it is whole").bytes();
    if place < head {
        return if place < 2 {
            (MARK, 0)
        } else {
            (SUM, head - 2)
        };
    }
    let holds = |(first, kind): &(usize, Kind)| place < first + kind.bytes();
    let record = records(whole).into_iter().find(holds);
    let (first, kind) = record.expect("it is in the file");
    match place - first {
        0 | 1 => (MARK, first),
        2 | 3 => (NUMBER, first + 2),
        _ => (SUM, first + kind.bytes() - 2),
    }
}

/// The same where it is cut: "9 keeps its place", which is the length, and the head's 0.
fn of_a_cut(whole: &[u8], length: usize) -> Told {
    let head = Head::of(whole).expect("it is whole").bytes();
    (FORM, if length < head { 0 } else { length })
}

/// The only place at which a file of the same length has another byte than a whole one.
fn other_byte(file: &[u8], whole: &[u8]) -> Option<usize> {
    let mut pairs = file.iter().zip(whole);
    let place = pairs.position(|(one, other)| one != other)?;
    (file.get(place + 1..) == whole.get(place + 1..)).then_some(place)
}

// ---- heads

const NEW_OF_ONE_SLICE: &str = "the new head of one slice";

fn head_cut(head: Head, length: usize) -> String {
    format!("the {head:?} head cut to {length} bytes")
}

fn head_changed(head: Head, place: usize, value: u8) -> String {
    format!("the {head:?} head with {value} for its byte {place}")
}

/// A head's fault: where the mark says no kind, by what is there of it.
fn of_head_fault(fault: Fault, at: &str) -> String {
    format!("{fault:?} {at}, in the head")
}

/// Which byte of a mark is the first that is wrong or missing; `first` is what all marks that are known here begin with.
fn at_mark(part: &[u8], first: u8) -> String {
    format!("at {}", usize::from(part.starts_with(&[first])))
}

fn required_of_heads() -> Vec<String> {
    let named = [NEW_OF_ONE_SLICE].into_iter().chain(BAD_ROWS);
    let faults = [
        (Fault::CutMark, "at 0", (FORM, 0)),
        (Fault::CutMark, "at 1", (FORM, 0)),
        (Fault::Mark, "at 0", (MARK, 0)),
        (Fault::Mark, "at 1", (MARK, 0)),
        (Fault::CutRest, "of Old", (FORM, 0)),
        (Fault::CutRest, "of New", (FORM, 0)),
        (Fault::Sum, "of Old", (SUM, 6)),
        (Fault::Sum, "of New", (SUM, 8)),
    ];
    let faults = faults.map(|(fault, at, by)| told(of_head_fault(fault, at), by));
    let of_kind = |head: Head| {
        let good = listed_head(head);
        let cut = (2..good.len()).map(|length| told(head_cut(head, length), (FORM, 0)));
        let others = |place: usize| {
            let others = other_values(good[place]).into_iter();
            let others = others.filter(|value| *value != good[place]);
            let by = of_another_byte(&good, place);
            let name = |value| told(head_changed(head, place, value), by);
            others.map(name).collect::<Vec<_>>()
        };
        cut.chain((0..good.len()).flat_map(others))
            .collect::<Vec<_>>()
    };
    let each = Head::ALL.into_iter().flat_map(of_kind);
    each.chain(faults).chain(named.map(str::to_owned)).collect()
}

fn of_reading(word: u64, arguments: &[Argument]) -> Vec<String> {
    let [Bytes(file)] = arguments else {
        unreachable!()
    };
    of_head(parts(word), file)
}

pub fn parts(word: u64) -> Told {
    (word % 256, (word / 256) as usize)
}

/// By the word, and the file that begins with the head.
fn of_head(by: Told, file: &[u8]) -> Vec<String> {
    let mut kinds = of_changed_head(by, file);
    match record::sound_head(file) {
        Err(broken) => {
            let head = Head::of(file);
            let at = match head {
                Some(head) => format!("of {head:?}"),
                None => at_mark(file, b'H'),
            };
            kinds.push(told(of_head_fault(broken.fault, &at), by));
            if let (Some(head), Fault::CutRest) = (head, broken.fault) {
                kinds.push(told(head_cut(head, file.len()), by));
            }
        }
        Ok((Head::New, head)) => kinds.extend(of_new_head(by, head)),
        Ok((Head::Old, _)) => {}
    }
    kinds
}

fn of_new_head((number, _): Told, head: &[u8]) -> Vec<String> {
    let field = |at: usize| usize::from(u16::from_be_bytes([head[at], head[at + 1]]));
    let layout = Layout {
        width: field(2),
        height: field(4),
        rows: field(6),
    };
    match number {
        0 if layout.rows == layout.height => vec![NEW_OF_ONE_SLICE.to_owned()],
        8 => of_bad_rows(layout),
        _ => vec![],
    }
}

/// Whether a file begins with a listed head but for one byte.
fn of_changed_head(by: Told, file: &[u8]) -> Vec<String> {
    let of = |kind: Head| {
        let head = file.get(..kind.bytes())?;
        let place = other_byte(head, &listed_head(kind))?;
        Some(told(head_changed(kind, place, head[place]), by))
    };
    Head::ALL.into_iter().filter_map(of).collect()
}

// ---- decoding

const BOTH: &str = "both kinds in one file";
const DC_AND_AC: &str = "a DC value out of range, and AC of another block than the first";
const MODE_4: &str = "mode 4 of 16x16";
const ABOVE_4: &str = "a mode of 16x16 above 4";
const BEHIND: &str = "behind the last record";
const BEHIND_COLOUR: &str = "behind the last record of a colour file";
const SUM_RIGHT: &str = "whose sum is right";
const LUMA: &str = "where luma is expected";
const CHROMA: &str = "where chroma is expected";

fn decoded(mode: u8) -> String {
    format!("a macroblock decoded by mode {mode} of 16x16")
}

fn cut(whole: &Whole, length: usize) -> String {
    format!("the listed file {} cut to {length} bytes", whole.name)
}

fn changed(whole: &Whole, place: usize) -> String {
    format!("the listed file {} and another byte {place}", whole.name)
}

/// A fault behind a head, and the number that it is refused by; `at` says more about it.
fn fault(head: Head, fault: Fault, at: &str, number: u64) -> String {
    format!("{fault:?} {at}, behind the {head:?} head: {number}")
}

fn quantizer(kind: Kind) -> String {
    format!("a QP above 51 in a record of {kind:?}")
}

fn lacks(mode: u8, edge: &str) -> String {
    format!("mode {mode} of 16x16 {edge}")
}

fn lacks_in(block: usize, mode: u8) -> String {
    format!("mode {mode} of 4x4 in block {block} {LATER_SLICE}")
}

fn ac(block: usize) -> String {
    format!("AC out of range in block {block} of 16x16")
}

fn largest(by: Told) -> String {
    told("a picture of the largest size".to_owned(), by)
}

fn dc(qp: u8, value: i64) -> String {
    format!("a DC value of {value} at QP {qp}")
}

/// The files that have names come to the words that they must; where no value says that a file is colour, to that of a mono one.
fn required_of_decoding(says_colour: bool) -> Vec<String> {
    let named = named::named().iter();
    let named_files = named.map(|Named { name, told: by, .. }| match by {
        (0, _) if !says_colour => told(name.clone(), (0, 0)),
        _ => told(name.clone(), *by),
    });
    let listed = listed_wholes().iter().flat_map(|whole| {
        let file = &whole.file;
        (0..file.len()).flat_map(move |place| {
            [
                told(cut(whole, place), of_a_cut(file, place)),
                told(changed(whole, place), of_another_byte(file, place)),
            ]
        })
    });
    let faults = Head::ALL.into_iter().flat_map(required_faults);
    let lacking = [
        lacks(0, FIRST_ROW),
        lacks(1, LEFT_EDGE),
        lacks(3, FIRST_ROW),
        lacks(3, LEFT_EDGE),
        lacks(3, FIRST),
        lacks(0, LATER_SLICE),
        lacks(3, LATER_SLICE),
    ];
    let across = UPPER_EDGE
        .into_iter()
        .flat_map(|block| NEED_ABOVE.map(|mode| lacks_in(block, mode)));
    let edges = (0..=51).flat_map(|qp| edges(qp).map(|value| dc(qp, value)));
    let named = [BOTH, DC_AND_AC, MODE_4, ABOVE_4].into_iter();
    let named = named.chain(reasons::ALL).map(str::to_owned);
    let largest = largest(refused_largest(says_colour).1);
    listed
        .chain(named_files)
        .chain(required_of_heads())
        .chain(every_slicing(4))
        .chain(across)
        .chain((0..4).map(decoded))
        .chain(Kind::LUMA.map(quantizer))
        .chain(faults)
        .chain(lacking)
        .chain((0..16).map(ac))
        .chain(edges)
        .chain(named)
        .chain([largest])
        .collect()
}

/// Of the records behind a head: "9 if the mark is cut, 11, 9 if the rest is cut, 12, 13", and 9 for what is surplus.
fn required_faults(head: Head) -> Vec<String> {
    let of_kinds = Kind::ALL.into_iter().flat_map(|kind| {
        let at = format!("of {kind:?}");
        let alone = format!("of {kind:?} {SUM_RIGHT}");
        [
            fault(head, Fault::CutRest, &at, FORM),
            fault(head, Fault::Number, &at, NUMBER),
            fault(head, Fault::Number, &alone, NUMBER),
            fault(head, Fault::Sum, &at, SUM),
        ]
    });
    // A mark that is none or cut; of a kind that does not belong there.
    let unknown = [LUMA, CHROMA].into_iter().flat_map(|expected| {
        ["at 0", "at 1"].into_iter().flat_map(move |at| {
            let at = format!("{at} {expected}");
            [(Fault::CutMark, FORM), (Fault::Mark, MARK)]
                .map(|(it, number)| fault(head, it, &at, number))
        })
    });
    let other = Kind::ALL.map(|kind| fault(head, Fault::Mark, &format!("of {kind:?}"), MARK));
    let surplus = [BEHIND, BEHIND_COLOUR].map(|at| fault(head, Fault::Surplus, at, FORM));
    let faults = unknown.chain(other).chain(surplus);
    of_kinds.chain(faults).collect()
}

fn edges(qp: u8) -> [i64; 4] {
    let edges = dc_edges(qp).expect("it is a QP");
    edges.map(|(_, value)| value)
}

fn of_decoding(word: u64, arguments: &[Argument]) -> Vec<String> {
    let [Bytes(file), ..] = arguments else {
        unreachable!()
    };
    let (number, place) = parts(word);
    let mut kinds = of_the_listed((number, place), file);
    kinds.extend(named::names_of(file).map(|name| told(name.to_owned(), (number, place))));
    kinds.extend(reasons::of((number, place), file).map(str::to_owned));
    kinds.extend(of_head((number, place), file));
    let Ok(layout) = record::read_head(file) else {
        return kinds;
    };
    kinds.extend((layout.macroblocks() == 16384).then(|| largest((number, place))));
    match (record::read_records(file, layout.macroblocks()), number) {
        (_, 1) => {}
        (Err(broken), _) => kinds.push(of_broken(number, file, broken)),
        (Ok(macroblocks), 0) => {
            kinds.extend(of_slicing(layout));
            kinds.extend(of_decoded(&macroblocks));
        }
        // The places of luma and chroma have one meaning each, but not one that a number tells; those of colour files have names.
        (Ok(macroblocks), _) if macroblocks[0].chroma.is_some() => {}
        (Ok(macroblocks), _) => {
            let refused = (place / 16, place % 16);
            kinds.extend(of_refused(number, refused, layout, &macroblocks));
        }
    }
    kinds
}

/// Whether a file is a beginning of a listed one, or that with one other byte.
fn of_the_listed(by: Told, file: &[u8]) -> Vec<String> {
    let of = |whole: &Whole| {
        if file.len() < whole.file.len() && whole.file.starts_with(file) {
            return Some(told(cut(whole, file.len()), by));
        }
        Some(told(changed(whole, other_byte(file, &whole.file)?), by))
    };
    listed_wholes().iter().filter_map(of).collect()
}

fn of_broken(number: u64, file: &[u8], broken: Broken) -> String {
    let head = Head::of(file).expect("the head is sound");
    let record = &file[broken.first..];
    let known = |kind: &Kind| record.starts_with(&kind.mark());
    let before: Vec<(usize, Kind)> = records(file)
        .into_iter()
        .take_while(|(first, _)| *first < broken.first)
        .collect();
    let colour = before.get(1).is_some_and(|it| it.1 == Kind::Chroma);
    let expected = match colour && before.len() % 2 == 1 {
        true => CHROMA,
        false => LUMA,
    };
    let at = match (broken.fault, Kind::ALL.into_iter().find(known)) {
        (Fault::Surplus, _) if colour => BEHIND_COLOUR.to_owned(),
        (Fault::Surplus, _) => BEHIND.to_owned(),
        (Fault::Number, Some(kind)) if record::sum_is_right(&record[..kind.bytes()]) => {
            format!("of {kind:?} {SUM_RIGHT}")
        }
        (_, Some(kind)) => format!("of {kind:?}"),
        (_, None) => format!("{} {expected}", at_mark(record, b'M')),
    };
    fault(head, broken.fault, &at, number)
}

fn of_decoded(macroblocks: &[Macroblock]) -> Vec<String> {
    let mut kinds = vec![];
    for macroblock in macroblocks {
        if let Luma::Sixteen(sixteen) = &macroblock.luma {
            kinds.push(decoded(sixteen.mode));
            kinds.extend(of_dc(macroblock.qp, sixteen));
        }
    }
    let has = |kind| macroblocks.iter().any(|it| it.kind() == kind);
    kinds.extend(Kind::LUMA.into_iter().all(has).then(|| BOTH.to_owned()));
    kinds
}

const FIRST: &str = "in the first macroblock";
const FIRST_ROW: &str = "in the first row";
const LEFT_EDGE: &str = "at the left edge";
const LATER_SLICE: &str = "in the first row of a later slice";

/// The blocks of a macroblock that have another above them, and the modes of 4x4 that need it.
const UPPER_EDGE: [usize; 4] = [0, 1, 4, 5];
const NEED_ABOVE: [u8; 6] = [0, 3, 4, 5, 6, 7];

/// A refusal of QUANTIZER, MODE or RANGE, by the record and the block that it names.
fn of_refused(
    number: u64,
    (record, block): (usize, usize),
    layout: Layout,
    macroblocks: &[Macroblock],
) -> Vec<String> {
    let macroblock = &macroblocks[record];
    let (column, row) = (record % layout.width, record / layout.width);
    let later = row > 0 && row % layout.rows == 0;
    match (number, &macroblock.luma) {
        (2, _) => vec![quantizer(macroblock.kind())],
        (3, Luma::Four(four)) if later => vec![lacks_in(block, four.modes[block])],
        (_, Luma::Four(_)) => vec![],
        (3, Luma::Sixteen(Sixteen { mode: 4, .. })) => vec![MODE_4.to_owned()],
        (3, Luma::Sixteen(Sixteen { mode: 5.., .. })) => vec![ABOVE_4.to_owned()],
        (3, Luma::Sixteen(sixteen)) => {
            let edge = match (column, row) {
                (0, 0) => FIRST,
                _ if later => LATER_SLICE,
                (0, _) => LEFT_EDGE,
                _ => FIRST_ROW,
            };
            vec![lacks(sixteen.mode, edge)]
        }
        (_, Luma::Sixteen(sixteen)) => of_range(macroblock.qp, sixteen, block),
    }
}

fn of_range(qp: u8, sixteen: &Sixteen, block: usize) -> Vec<String> {
    let wide = |value: &i64| i16::try_from(*value).is_err();
    let values = rescaled_luma_dc(qp, &sixteen.dc).expect("QUANTIZER comes before RANGE");
    if !values.iter().any(wide) {
        return vec![ac(block)];
    }
    let mut kinds = of_dc(qp, sixteen);
    let out = |ac: &[i16; 15]| {
        rebuild_with_dc(qp, &[0; 16], 0, &ac.map(i32::from), &mut [0; 16]).is_err()
    };
    if sixteen
        .ac
        .iter()
        .position(out)
        .is_some_and(|block| block > 0)
    {
        kinds.push(DC_AND_AC.to_owned());
    }
    kinds
}

/// The DC values that are next to an end of the range.
fn of_dc(qp: u8, sixteen: &Sixteen) -> Vec<String> {
    let values = rescaled_luma_dc(qp, &sixteen.dc).expect("the QP is legal");
    let seen = edges_by_qp()[usize::from(qp)]
        .into_iter()
        .filter(|edge| values.contains(edge));
    seen.map(|value| dc(qp, value)).collect()
}

fn edges_by_qp() -> &'static [[i64; 4]; 52] {
    static EDGES: std::sync::OnceLock<[[i64; 4]; 52]> = std::sync::OnceLock::new();
    EDGES.get_or_init(|| std::array::from_fn(|qp| edges(qp as u8)))
}
