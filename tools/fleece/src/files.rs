//! Files in and out, and `-` for standard input and output.
//!
//! What is written appears whole or not at all: it is written beside its place, under a name of its own, and then renamed. Of several
//! files none appears unless all could be written. What is no file (a pipe, a device) is written to as it is, before any file appears.
//! Nothing is forced to the disk: a power cut is the file system's business.

use crate::netpbm::{self, Picture};
use crate::{Console, Failure};
use std::ffi::OsStr;
use std::fs::{self, File, OpenOptions};
use std::io::{self, ErrorKind, Read, Write};
use std::path::{Path, PathBuf};
use std::process;

/// More than any picture or record file has: 2048 x 2048 samples are 12 MiB in colour, and their file 13.
const LARGEST: u64 = 64 << 20;

/// A name in a message, on one line whatever it holds.
pub fn shown(name: &OsStr) -> String {
    let text = name.to_string_lossy();
    text.chars().map(|it| if it.is_control() { it.escape_default().to_string() } else { it.to_string() }).collect()
}

/// Whether a name stands for standard input or output.
pub fn is_standard(name: &OsStr) -> bool {
    name == "-"
}

/// A file that was read, with its name for messages.
pub struct Source {
    pub name: String,
    pub bytes: Vec<u8>,
}

impl Source {
    pub fn read(name: &OsStr, console: &mut Console) -> Result<Source, Failure> {
        let standard = is_standard(name);
        let shown = if standard { String::from("standard input") } else { shown(name) };
        let read = match standard {
            true => all(&mut *console.input, 0),
            false => File::open(name).and_then(|file| {
                let length = file.metadata()?.len();
                all(file, length)
            }),
        };
        match read {
            Err(error) => Err(Failure::Unusable(format!("{shown}: {error}"))),
            Ok(bytes) if bytes.len() as u64 > LARGEST => {
                Err(Failure::Unusable(format!("{shown}: it has more than {LARGEST} bytes, and no picture and no file of one is so large")))
            }
            Ok(bytes) => Ok(Source { name: shown, bytes }),
        }
    }

    /// The PGM or PPM that it is.
    pub fn picture(&self) -> Result<Picture<'_>, Failure> {
        netpbm::parse(&self.bytes).map_err(|why| Failure::refused(&self.name, why))
    }

    /// The PGM that it is.
    pub fn plane(&self) -> Result<Picture<'_>, Failure> {
        let picture = self.picture()?;
        match picture.kind {
            netpbm::Kind::Grey => Ok(picture),
            netpbm::Kind::Colour => Err(Failure::refused(&self.name, "at byte 0: this is a PPM (P6), and a plane is a PGM (P5)")),
        }
    }
}

/// All bytes, up to one more than are taken; so many are expected.
fn all(from: impl Read, expected: u64) -> io::Result<Vec<u8>> {
    let mut bytes = fleecebutton::room(expected.min(LARGEST) as usize);
    from.take(LARGEST + 1).read_to_end(&mut bytes)?;
    Ok(bytes)
}

/// A file to be written: its name, and its bytes in parts.
pub struct Output<'a> {
    pub name: &'a OsStr,
    pub parts: Vec<&'a [u8]>,
}

/// Writes all of them, or leaves every file as it was.
pub fn write(outputs: &[Output], console: &mut Console) -> Result<(), Failure> {
    let mut beside = Vec::new();
    let mut streams = Vec::new();
    for output in outputs {
        match target(output.name) {
            Ok(Some(target)) => beside.push((output, target)),
            Ok(None) => streams.push(output),
            Err(error) => return Err(unwritten(output, &error)),
        }
    }
    different(&beside, &streams)?;
    let several = beside.len() > 1;
    let mut files = Vec::new();
    for (output, target) in beside {
        files.push((output, Beside::write(target, &output.parts, several).map_err(|error| unwritten(output, &error))?));
    }
    for output in streams {
        stream(output, console).map_err(|error| unwritten(output, &error))?;
    }
    appear(files)
}

fn unwritten(output: &Output, error: &io::Error) -> Failure {
    let name = if is_standard(output.name) { String::from("standard output") } else { shown(output.name) };
    Failure::Unusable(format!("{name}: {error}"))
}

/// Two outputs to one place would leave one of them.
fn different(beside: &[(&Output, PathBuf)], streams: &[&Output]) -> Result<(), Failure> {
    let twice = beside.iter().enumerate().find(|(number, (_, target))| beside[..*number].iter().any(|(_, other)| other == target));
    let name = twice.map(|(_, (output, _))| output.name);
    let name = name.or_else(|| streams.iter().map(|output| output.name).filter(|name| is_standard(name)).nth(1));
    match name {
        Some(name) => Err(Failure::Unusable(format!("{}: two outputs are to be written there", shown(name)))),
        None => Ok(()),
    }
}

/// The file that a name leads to, whether it is there or not; none for what is no file.
fn target(name: &OsStr) -> io::Result<Option<PathBuf>> {
    if is_standard(name) {
        return Ok(None);
    }
    let path = Path::new(name);
    match fs::metadata(path) {
        Ok(found) if found.is_dir() => Err(io::Error::other("it is a directory")),
        Ok(found) if !found.is_file() => Ok(None),
        Ok(found) if found.permissions().readonly() => Err(io::Error::other("it may only be read")),
        Ok(_) => fs::canonicalize(path).map(Some),
        Err(error) if error.kind() == ErrorKind::NotFound => new_file(path).map(Some),
        Err(error) => Err(error),
    }
}

/// A file that is not there yet, by the folder that it will be in.
fn new_file(path: &Path) -> io::Result<PathBuf> {
    let Some(name) = path.file_name().filter(|_| !path.as_os_str().as_encoded_bytes().ends_with(b"/")) else {
        return Err(io::Error::other("it is no name of a file"));
    };
    let folder = path.parent().filter(|folder| !folder.as_os_str().is_empty()).unwrap_or(Path::new("."));
    Ok(fs::canonicalize(folder)?.join(name))
}

/// To standard output, or to what is no file.
fn stream(output: &Output, console: &mut Console) -> io::Result<()> {
    if is_standard(output.name) {
        return console.write(&output.parts);
    }
    let mut device = OpenOptions::new().write(true).open(output.name)?;
    output.parts.iter().try_for_each(|part| device.write_all(part))
}

/// A file that is written, and does not yet stand in its place. Dropped, it is gone.
struct Beside {
    temporary: PathBuf,
    target: PathBuf,
    /// What stands in its place now, under a second name, for when another file cannot appear.
    old: Option<PathBuf>,
}

impl Beside {
    /// Writes the parts into a file of its own in the target's folder.
    fn write(target: PathBuf, parts: &[&[u8]], several: bool) -> io::Result<Beside> {
        let (temporary, mut file) = named_beside(&target, |path| OpenOptions::new().write(true).create_new(true).open(path))?;
        let mut beside = Beside { temporary, target, old: None };
        if let Ok(found) = fs::metadata(&beside.target) {
            file.set_permissions(found.permissions())?;
            if several {
                // where a file system has no second names the old file cannot come back, but the new one still goes
                beside.old = named_beside(&beside.target, |path| fs::hard_link(&beside.target, path)).ok().map(|(path, ())| path);
            }
        }
        for part in parts {
            file.write_all(part)?;
        }
        Ok(beside)
    }

    fn appear(&self) -> io::Result<()> {
        fs::rename(&self.temporary, &self.target)
    }

    /// As it was before it appeared.
    fn disappear(&self) {
        let _ = match &self.old {
            Some(old) => fs::rename(old, &self.target),
            None => fs::remove_file(&self.target),
        };
    }
}

impl Drop for Beside {
    fn drop(&mut self) {
        // of a file that has appeared there is none of this name any more
        let _ = fs::remove_file(&self.temporary);
        if let Some(old) = &self.old {
            let _ = fs::remove_file(old);
        }
    }
}

/// Makes something under a name in the folder of a file that nothing has yet.
fn named_beside<T>(target: &Path, make: impl Fn(&Path) -> io::Result<T>) -> io::Result<(PathBuf, T)> {
    let mut number = 0;
    loop {
        let path = target.with_file_name(format!(".fleece-{}-{number}", process::id()));
        match make(&path) {
            Ok(made) => return Ok((path, made)),
            Err(error) if error.kind() == ErrorKind::AlreadyExists && number < 1000 => number += 1,
            Err(error) => return Err(error),
        }
    }
}

/// All files to their places; if one cannot go there, those before it go back.
fn appear(files: Vec<(&Output, Beside)>) -> Result<(), Failure> {
    for (number, (output, file)) in files.iter().enumerate() {
        if let Err(error) = file.appear() {
            files[..number].iter().for_each(|(_, before)| before.disappear());
            return Err(unwritten(output, &error));
        }
    }
    Ok(())
}

#[cfg(test)]
mod tests {
    use super::*;

    /// A folder of a test's own, empty.
    fn folder(name: &str) -> PathBuf {
        let folder = std::env::temp_dir().join(format!("fleece-{}-{name}", process::id()));
        fs::create_dir_all(&folder).unwrap();
        folder
    }

    /// Two files are written, and then a folder stands where the second should appear.
    fn second_cannot_appear(folder: &Path) -> Result<(), Failure> {
        let targets = ["first", "second"].map(|name| folder.join(name));
        let outputs = ["first", "second"].map(|name| Output { name: OsStr::new(name), parts: vec![b"new"] });
        let written = targets.clone().map(|target| Beside::write(target, &[b"new"], true).unwrap());
        fs::create_dir(&targets[1]).unwrap();
        appear(outputs.iter().zip(written).collect())
    }

    #[test]
    fn the_first_goes_again_if_the_second_cannot_appear() {
        let folder = folder("goes");
        assert!(matches!(second_cannot_appear(&folder), Err(Failure::Unusable(line)) if line.starts_with("second: ")));
        assert_eq!(fs::read_dir(&folder).unwrap().count(), 1);
        fs::remove_dir_all(folder).unwrap();
    }

    #[test]
    fn what_the_first_replaced_comes_back() {
        let folder = folder("back");
        fs::write(folder.join("first"), "old").unwrap();
        assert!(second_cannot_appear(&folder).is_err());
        assert_eq!(fs::read_to_string(folder.join("first")).unwrap(), "old");
        assert_eq!(fs::read_dir(&folder).unwrap().count(), 2);
        fs::remove_dir_all(folder).unwrap();
    }
}
