//! What is asked on the command line.

use crate::pictures::{Draw, CONTENTS};
use std::path::PathBuf;
use std::str::FromStr;

pub enum Asked {
    /// The library beside the reference, and beside the study where it is linked.
    Reference,
    /// The library beside another, with which this program of the same source is linked.
    Against(PathBuf),
    /// The library beside x264 and ffmpeg, with a folder for their files.
    Peers(PathBuf),
    /// Rounds of the first picture as they are asked for: for the process that compares.
    Rounds,
}

/// A picture that is timed.
pub struct Chosen {
    pub name: &'static str,
    pub draw: Draw,
    pub qp: u8,
}

pub struct Arguments {
    pub asked: Asked,
    pub pictures: Vec<Chosen>,
    /// Each task is run so often, in turns, and its best time counts: what else the machine does only ever adds to a time.
    pub rounds: usize,
}

impl Arguments {
    pub fn read(mut words: impl Iterator<Item = String>) -> Result<Arguments, String> {
        let (mut asked, mut rounds) = (Asked::Reference, 12);
        let (mut names, mut qps) = (vec![], vec![]);
        while let Some(word) = words.next() {
            if word == "--answer-rounds" {
                asked = Asked::Rounds;
                continue;
            }
            let value = words
                .next()
                .ok_or_else(|| format!("{word} needs a value, or is unknown"))?;
            match word.as_str() {
                "--against" => asked = Asked::Against(value.into()),
                "--peers" => asked = Asked::Peers(value.into()),
                "--picture" => names.push(value),
                "--qp" => qps.push(number(&value, 0..=51)?),
                "--rounds" => rounds = number(&value, 1..=1000)?,
                _ => return Err(format!("{word} is unknown")),
            }
        }
        if qps.is_empty() {
            qps.push(28);
        }
        Ok(Arguments {
            asked,
            pictures: chosen(&names, &qps)?,
            rounds,
        })
    }
}

fn number<N: FromStr + PartialOrd>(
    word: &str,
    range: std::ops::RangeInclusive<N>,
) -> Result<N, String> {
    let number = word.parse().ok().filter(|number| range.contains(number));
    number.ok_or_else(|| format!("{word} is no number that can be asked there"))
}

/// The contents of these names, or all where none is named, each at every QP.
fn chosen(names: &[String], qps: &[u8]) -> Result<Vec<Chosen>, String> {
    let all = CONTENTS.map(|(name, _)| name);
    if let Some(unknown) = names.iter().find(|name| !all.contains(&name.as_str())) {
        return Err(format!("there is no picture {unknown}; there are {all:?}"));
    }
    let is_asked = |name: &str| names.is_empty() || names.iter().any(|asked| asked == name);
    let mut chosen = vec![];
    for (name, draw) in CONTENTS.into_iter().filter(|(name, _)| is_asked(name)) {
        chosen.extend(qps.iter().map(|&qp| Chosen { name, draw, qp }));
    }
    Ok(chosen)
}
