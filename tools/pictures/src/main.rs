//! pictures IN.pgm OUT.png: a grey picture as PNG, the same bytes on every machine, for docs/pictures.

mod deflate;
mod png;
#[cfg(test)]
mod tests;

use std::process::ExitCode;
use std::{env, fs};

fn main() -> ExitCode {
    let words: Vec<String> = env::args().skip(1).collect();
    let [from, to] = &words[..] else {
        eprintln!("usage: pictures IN.pgm OUT.png");
        return ExitCode::from(2);
    };
    match made(from, to) {
        Ok(()) => ExitCode::SUCCESS,
        Err(why) => {
            eprintln!("pictures: {why}");
            ExitCode::from(2)
        }
    }
}

fn made(from: &str, to: &str) -> Result<(), String> {
    let file = fs::read(from).map_err(|why| format!("{from}: {why}"))?;
    let (width, height, samples) = grey(&file).ok_or_else(|| format!("{from}: no PGM of 8 bits as `fleece` and `dial` write it"))?;
    fs::write(to, png::png(width, height, samples)).map_err(|why| format!("{to}: {why}"))
}

/// Width, height and samples of a PGM whose head is `P5`, width, height and 255, without comments.
pub fn grey(file: &[u8]) -> Option<(usize, usize, &[u8])> {
    let mut rest = file.strip_prefix(b"P5")?;
    let mut numbers = [0_usize; 3];
    for number in &mut numbers {
        let blank = rest.iter().take_while(|byte| byte.is_ascii_whitespace()).count();
        rest = &rest[blank..];
        let long = rest.iter().take_while(|byte| byte.is_ascii_digit()).count();
        *number = std::str::from_utf8(&rest[..long]).ok()?.parse().ok()?;
        rest = &rest[long..];
    }
    let [width, height, most] = numbers;
    let samples = rest.get(1..)?;
    (most == 255 && width > 0 && height > 0 && Some(samples.len()) == width.checked_mul(height)).then_some((width, height, samples))
}
