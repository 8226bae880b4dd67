//! Output files appear whole or not at all, and of two neither unless both could be written.

mod common;

use common::*;
use std::fs::{self, Permissions};
use std::os::unix::fs::{symlink, PermissionsExt};

#[test]
fn a_refusal_leaves_what_was_there() {
    let folder = folder("kept");
    fs::write(folder.join("in"), pgm(16, 17)).unwrap();
    fs::write(folder.join("broken"), &mono(2, 2)[..900]).unwrap();
    for name in ["out", "rebuilt"] {
        fs::write(folder.join(name), name).unwrap();
    }
    fleece(&folder, &["code", "in", "out", "rebuilt"]).told(1, "multiples of 16");
    fleece(&folder, &["decode", "broken", "out"]).told(1, "FORM (refusal 9) at byte 900");
    assert_eq!(names(&folder), ["broken", "in", "out", "rebuilt"]);
    for name in ["out", "rebuilt"] {
        assert_eq!(fs::read_to_string(folder.join(name)).unwrap(), name);
    }
}

/// Two outputs, of which the second cannot be written.
#[test]
fn neither_of_two_appears() {
    let folder = folder("neither");
    fs::write(folder.join("in"), pgm(32, 32)).unwrap();
    fs::create_dir(folder.join("directory")).unwrap();
    fs::write(folder.join("closed"), "closed").unwrap();
    fs::set_permissions(folder.join("closed"), Permissions::from_mode(0o444)).unwrap();
    let impossible = [
        ("directory", "directory: it is a directory"),
        ("closed", "closed: it may only be read"),
        ("nowhere/rebuilt", "nowhere/rebuilt: No such file"),
        ("in/rebuilt", "in/rebuilt: Not a directory"),
        ("new/", "new/: it is no name of a file"),
        ("/dev/full", "/dev/full: No space left on device"),
        ("out", "out: two outputs are to be written there"),
        ("./directory/../out", "out: two outputs are to be written there"),
        ("", ": "),
    ];
    for (rebuilt, words) in impossible {
        for (first, second) in [("out", rebuilt), (rebuilt, "out")] {
            fleece(&folder, &["code", "in", first, second]).told(2, words);
            assert_eq!(names(&folder), ["closed", "directory", "in"], "{rebuilt}");
        }
    }
    fleece(&folder, &["code", "in", "out", "rebuilt"]).done();
    assert_eq!(names(&folder), ["closed", "directory", "in", "out", "rebuilt"]);
    assert_eq!(fs::read_to_string(folder.join("closed")).unwrap(), "closed");
}

/// A disk that is full: what could be written of a file is not left.
#[test]
fn a_device_is_written_as_it_is() {
    let folder = folder("device");
    fs::write(folder.join("in"), pgm(32, 32)).unwrap();
    fleece(&folder, &["code", "in", "file"]).done();
    fleece(&folder, &["decode", "file", "/dev/full"]).told(2, "/dev/full: No space left on device");
    fleece(&folder, &["decode", "file", "/dev/null"]).done();
    assert!(!fs::metadata("/dev/null").unwrap().is_file());
    assert_eq!(names(&folder), ["file", "in"]);
}

/// Input and output may be one file; a link is followed; permissions stay.
#[test]
fn what_is_replaced_keeps_its_name_and_permissions() {
    let folder = folder("replaced");
    let picture = pgm(32, 32);
    fs::write(folder.join("a"), &picture).unwrap();
    fs::set_permissions(folder.join("a"), Permissions::from_mode(0o640)).unwrap();
    symlink("a", folder.join("link")).unwrap();
    fleece(&folder, &["code", "a", "link"]).done();
    let found = fs::symlink_metadata(folder.join("link")).unwrap();
    assert!(found.is_symlink());
    assert_eq!(fs::metadata(folder.join("a")).unwrap().permissions().mode() & 0o777, 0o640);
    fleece(&folder, &["decode", "a", "a"]).done();
    assert!(fs::read(folder.join("a")).unwrap().starts_with(b"P5\n32 32\n255\n"));
    fleece(&folder, &["code", "a", "a", "link"]).told(2, "link: two outputs are to be written there");
    assert_eq!(names(&folder), ["a", "link"]);
}
