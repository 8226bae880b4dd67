//! 100,000 random inputs to what reads: none makes it panic, and what is refused is told on one line. The tests are built with overflow
//! checked.

mod common;

use common::*;
use fleece::{netpbm, Console};
use fleecebutton::{decode_picture, decode_plane, inspect, read_head, Refusal};
use std::ffi::OsString;
use std::{env, io};

/// Of each kind, which together are 100,000.
const PICTURES: usize = 30_000;
const FILES: usize = 40_000;
const COMMANDS: usize = 20_000;
const WORDS: usize = 10_000;
const _: () = assert!(PICTURES + FILES + COMMANDS + WORDS == 100_000);

/// Bytes that look like a head more often than not.
fn head(random: &mut impl FnMut(u32) -> u32) -> Vec<u8> {
    const PARTS: [&[u8]; 24] = [
        b"P5",
        b"P6",
        b"P2",
        b"P",
        b" ",
        b"\n",
        b"\r",
        b"\t",
        b"#",
        b"# c\n",
        b"0",
        b"1",
        b"16",
        b"32",
        b"255",
        b"255\n",
        b"65535",
        b"-1",
        b"99999999999",
        b"\xFF",
        b"\0",
        b"x",
        b"P5 16 16 255 ",
        b"P6\n2 1\n255\n",
    ];
    if random(3) == 0 {
        return nearly_right(random);
    }
    let mut bytes = if random(4) > 0 { PARTS[random(2) as usize].to_vec() } else { Vec::new() };
    for _ in 0..random(12) {
        bytes.extend_from_slice(PARTS[random(PARTS.len() as u32) as usize]);
    }
    let samples = [0, 1, 6, 255, 256, 257, 768][random(7) as usize];
    bytes.extend((0..samples).map(|_| 7));
    bytes
}

/// A small picture, of which a byte may be another.
fn nearly_right(random: &mut impl FnMut(u32) -> u32) -> Vec<u8> {
    let (mark, depth) = if random(2) == 0 { ("P5", 1) } else { ("P6", 3) };
    let [width, height] = [random(34) as usize, random(34) as usize];
    let mut bytes = netpbm(mark, width, height, &vec![9; width * height * depth]);
    if random(2) == 0 {
        let place = random(bytes.len().min(16) as u32) as usize;
        bytes[place] = random(256) as u8;
    }
    bytes
}

#[test]
fn pictures() {
    let mut random = noise(21);
    let mut accepted = 0;
    for _ in 0..PICTURES {
        let bytes = head(&mut random);
        match netpbm::parse(&bytes) {
            Ok(picture) => {
                assert_eq!(picture.samples.len(), picture.width * picture.height * picture.kind.depth());
                accepted += 1;
            }
            Err(why) => assert!(why.place <= bytes.len() && !why.to_string().contains('\n'), "{why}"),
        }
    }
    assert!(accepted > 100, "{accepted} are accepted, so that both ends are seen");
}

/// A record file with bytes changed, cut out, doubled or exchanged; mostly with the sums made right, so that more than sums is refused.
fn damaged(whole: &[u8], random: &mut impl FnMut(u32) -> u32) -> Vec<u8> {
    let mut file = whole.to_vec();
    for _ in 0..random(4) {
        // often where marks, numbers, QPs and modes are
        let near = [0, 8, 535, 800, 1062, 1327][random(6) as usize] + random(16) as usize;
        let place = (if random(2) == 0 { near } else { random(file.len() as u32) as usize }).min(file.len().saturating_sub(1));
        match random(8) {
            0 => file.truncate(place),
            1 => file.insert(place, random(256) as u8),
            2 => drop(file.remove(place)),
            3 => file.swap(place, 0),
            4 => file.extend_from_within(place..),
            _ => file[place] = [random(256) as u8, 0xFF, 0x80, 52][random(4) as usize],
        }
        if file.is_empty() {
            return file;
        }
    }
    if random(4) == 0 {
        return file;
    }
    if let Some(head) = file.get_mut(..8).filter(|head| head.starts_with(&[0x48, 0x44])) {
        let sum = head[..6].iter().map(|byte| u16::from(*byte)).sum::<u16>();
        head[6..].copy_from_slice(&sum.to_be_bytes());
    }
    resummed(file)
}

fn told<T>(answer: Result<T, Refusal>, numbers: &mut [usize; 256]) {
    let number = answer.err().map_or(0, |refusal| {
        let line = refusal.to_string();
        assert!(!line.contains('\n') && !line.contains("no words") && line.starts_with(refusal.name()), "{line}");
        refusal.number()
    });
    numbers[usize::from(number)] += 1;
}

#[test]
fn files() {
    let mut random = noise(22);
    let wholes = [mono(2, 1), colour(2, 1), mono(1, 2), colour(1, 1), vec![0x48, 0x53, 0, 4, 0, 3, 0, 2, 0, 0xA4]];
    let mut numbers = [0; 256];
    for _ in 0..FILES {
        let file = match random(20) {
            0 => busy(random(40) as usize, random(1 << 20)),
            _ => damaged(&wholes[random(5) as usize], &mut random),
        };
        told(read_head(&file), &mut numbers);
        told(decode_plane(&file), &mut numbers);
        told(decode_picture(&file), &mut numbers);
        told(inspect(&file, &[128; 512]), &mut numbers);
    }
    for number in [0, 1, 2, 3, 6, 8, 9, 11, 12, 13, 17] {
        assert!(numbers[number] > 10, "refusal {number} came {} times", numbers[number]);
    }
}

/// The command in this process, and what it wrote to standard error.
fn run(words: &[&str], input: &[u8]) -> (u8, String) {
    let words: Vec<OsString> = words.iter().map(OsString::from).collect();
    let (mut input, mut output, mut errors) = (input, io::sink(), Vec::new());
    let status = fleece::run(&words, &mut Console { input: &mut input, output: &mut output, errors: &mut errors });
    (status, String::from_utf8(errors).expect("messages are text"))
}

#[test]
fn commands() {
    let mut random = noise(23);
    let wholes = [mono(2, 1), colour(1, 1)];
    let mut statuses = [0; 3];
    for _ in 0..COMMANDS {
        let words: &[&str] =
            [&["code", "-", "-"][..], &["code", "--pad", "-", "-"], &["decode", "-", "-"], &["info", "-"], &["decode", "--luma", "-", "-"]]
                [random(5) as usize];
        let input = match words[0] == "code" {
            true => head(&mut random),
            false => damaged(&wholes[random(2) as usize], &mut random),
        };
        let (status, errors) = run(words, &input);
        // padding has a line of its own before another
        assert!(status < 2 && errors.lines().count() <= 2 && errors.lines().all(|line| line.starts_with("fleece: ")), "{errors}");
        statuses[usize::from(status)] += 1;
    }
    assert!(statuses[0] > 500 && statuses[1] > 500, "{statuses:?}");
}

/// Any words behind the command's name. Whatever they name is a file of this folder.
#[test]
fn words() {
    const WORDS_TAKEN: [&str; 22] = [
        "code",
        "decode",
        "info",
        "compare",
        "sheet",
        "inspect",
        "distance",
        "version",
        "-",
        "--",
        "-q",
        "--rows",
        "--pad",
        "--luma",
        "--cb-offset",
        "28",
        "52",
        "-1",
        "",
        "nowhere/x",
        "a",
        "b",
    ];
    env::set_current_dir(folder("random-words")).unwrap();
    std::fs::write("a", pgm(16, 16)).unwrap();
    let mut random = noise(24);
    let mut statuses = [0; 3];
    for _ in 0..WORDS {
        let command = WORDS_TAKEN[random(9) as usize];
        let more = (0..random(6)).map(|_| WORDS_TAKEN[random(WORDS_TAKEN.len() as u32) as usize]);
        let words: Vec<&str> = std::iter::once(command).chain(more).collect();
        let (status, errors) = run(&words, &pgm(16, 16));
        assert!(errors.lines().count() <= 2 && errors.lines().all(|line| line.starts_with("fleece: ")), "{words:?}: {errors}");
        assert!(status == 0 || !errors.is_empty() || command == "compare", "{words:?}");
        statuses[usize::from(status)] += 1;
    }
    assert!(statuses.iter().all(|count| *count > 20), "{statuses:?}");
}
