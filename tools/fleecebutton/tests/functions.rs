//! Each function on what document 01 has measured of it, and whole pictures there and back.

mod common;

use common::{busy, coded, coloured, noise, resummed};
use fleecebutton::*;
use std::collections::BTreeSet;

#[test]
fn blocks() {
    let mut neighbours = [0; 13];
    neighbours[1..9].copy_from_slice(&[10, 20, 30, 40, 50, 60, 70, 80]);
    let predicted = predict(&neighbours, 9, 3).unwrap();
    assert_eq!((predicted[0], predicted[15]), (20, 78));
    assert_eq!(predict(&neighbours, 1, 3).unwrap()[15], 40);
    assert_eq!(choose(&[100; 13], 15, &[100; 16]), Ok(Choice { mode: 0, sad: 0, prediction: [100; 16] }));
    let mut first = [0; 16];
    first[0] = 16;
    assert_eq!(forward(&[1; 16]), Ok(first));
    first[0] = 2;
    assert_eq!(levels(28, &[10; 16]), Ok(first));
    assert_eq!(rebuild(28, &[128; 16], &first), Ok([136; 16]));
    assert_eq!(rebuild_with_dc(28, &[128; 16], 512, &[0; 15]), Ok([136; 16]));
    let coded = code_block(28, 0, &[77; 13], &[138; 16]);
    assert_eq!(coded, Ok(CodedBlock { mode: 2, sad: 160, levels: first, rebuilt: [136; 16] }));
    first[0] = 10;
    assert_eq!(luma_dc_levels(28, &[160; 16]), Ok(first));
    assert_eq!(luma_dc_values(28, &first), Ok([640; 16]));
    assert_eq!(chroma_dc_levels(28, &[160; 4]), Ok([5, 0, 0, 0]));
    assert_eq!(chroma_dc_values(28, &[5, 0, 0, 0]), Ok([640; 4]));
    assert_eq!([(29, 0), (30, 0), (51, 12), (0, -12)].map(|(qp, offset)| chroma_quantizer(qp, offset).unwrap()), [29, 29, 39, 0]);
    assert_eq!(promised_distance(28), Ok(41));
}

#[test]
fn planes_there_and_back() {
    for (width, height, rows) in [(1, 1, 1), (3, 4, 4), (3, 4, 1), (3, 4, 3), (128, 1, 1), (1, 128, 50)] {
        let layout = Layout { width, height, rows };
        let coded = code_plane(layout, 30, &busy(layout.samples(), 7)).unwrap();
        assert_eq!(read_head(&coded.file), Ok(layout));
        assert_eq!(decode_plane(&coded.file), Ok(DecodedPlane { layout, samples: coded.rebuilt.clone() }));
        let mono = decode_picture(&coded.file);
        assert_eq!(mono, Ok(DecodedPicture { layout, luma: coded.rebuilt.clone(), chroma: None }));
        assert_eq!(inspect(&coded.file, &coded.rebuilt), Ok(()));
    }
}

#[test]
fn pictures_there_and_back() {
    let coded = coloured(4, 3);
    let layout = Layout::one_slice(4, 3);
    let decoded = decode_picture(&coded.file).unwrap();
    assert_eq!(decoded, DecodedPicture { layout, luma: coded.luma.clone(), chroma: Some([coded.cb.clone(), coded.cr.clone()]) });
    assert_eq!(decode_plane(&coded.file).unwrap().samples, coded.luma);
    assert_eq!(inspect(&coded.file, &coded.luma), Ok(()));
}

/// A refusal leaves lent areas as they were.
#[test]
fn a_refusal_writes_nothing() {
    let layout = Layout::one_slice(2, 1);
    let (mut file, mut rebuilt) = (vec![90; layout.file_area()], vec![90; layout.samples()]);
    assert!(code_plane_into(layout, 52, &[7; 512], &mut file, &mut rebuilt).is_err());
    let mut broken = coded(layout, 28).file;
    broken[8 + 527 + 4] = 52;
    resummed(&mut broken);
    assert!(decode_plane_into(&broken, &mut rebuilt).is_err());
    assert!(file.iter().chain(&rebuilt).all(|byte| *byte == 90));
}

#[test]
fn a_sheet_or_none() {
    let (original, rebuilt) = (busy(512, 1), busy(512, 2));
    let difference = |place: usize| f64::from(rebuilt[place]) - f64::from(original[place]);
    // of macroblock 1, whose samples are columns 16 to 31
    let places: Vec<usize> = (0..512).filter(|place| place % 32 >= 16).collect();
    let mean = |of: fn(f64) -> f64| places.iter().map(|place| of(difference(*place))).sum::<f64>() / 256.0;
    let sheet = Sheet { mean_absolute_error: mean(f64::abs), mean_squared_error: mean(|it| it * it), mean_signed_error: mean(|it| it) };
    assert_eq!(quality_sheet(2, 1, &original, &rebuilt, &[0, 1]), Ok(Some(sheet)));
    assert_eq!(quality_sheet(2, 1, &original, &rebuilt, &[0, 0]), Ok(None));
}

#[test]
fn records_are_read_as_they_were_coded() {
    let coded = coloured(2, 2);
    let kinds: Vec<Kind> = Records::of(&coded.file).map(|record| record.kind()).collect();
    assert_eq!(kinds, [Kind::Four, Kind::Chroma].repeat(4));
    for record in Records::of(&coded.file) {
        let luma = record.kind() == Kind::Four;
        assert_eq!((record.qp(), record.offsets()), if luma { (Some(28), None) } else { (None, Some([0, 0])) });
        assert_eq!((record.modes().len(), record.levels().count()), if luma { (16, 256) } else { (1, 128) });
    }
    assert_eq!(Records::of(b"").count() + Records::of(b"P5").count() + Records::of(&coded.file[..8]).count(), 0);
}

/// An argument of the header, as Rust has it.
fn in_rust(argument: &str) -> String {
    let (of, name) = argument.rsplit_once([' ', '*']).unwrap();
    let (pointer, of) = match (argument.contains('*'), of.strip_prefix("const ")) {
        (false, _) => ("", of),
        (true, None) => ("*mut ", of),
        (true, Some(of)) => ("*const ", of),
    };
    let number = match of.trim_end_matches('*').trim() {
        "uint8_t" => "u8",
        "int32_t" => "i32",
        "size_t" => "usize",
        "double" => "f64",
        other => panic!("{other} is no type of the header"),
    };
    format!("{name}: {pointer}{number}")
}

/// A declaration's name and its arguments.
fn declaration(text: &str, argument: impl Fn(&str) -> String) -> (String, Vec<String>) {
    let (name, arguments) = text.split_once('(').unwrap();
    (name.to_string(), arguments.split(',').map(str::trim).filter(|it| !it.is_empty()).map(argument).collect())
}

/// The wrapper declares what the header does: the same functions, with the same arguments.
#[test]
fn the_header_declares_the_same_functions() {
    let header = std::fs::read_to_string(concat!(env!("CARGO_MANIFEST_DIR"), "/../../include/fleecebutton.h")).unwrap();
    let theirs = header.split("\nuint64_t fb_").skip(1).filter_map(|rest| rest.split_once(");")).map(|it| declaration(it.0, in_rust));
    let calls = include_str!("../src/calls.rs");
    let own = calls.split("\n    fn fb_").skip(1).filter_map(|rest| rest.split_once(") -> u64;"));
    let own: BTreeSet<_> = own.map(|it| declaration(it.0, str::to_string)).collect();
    assert_eq!(own.len(), 20);
    assert_eq!(theirs.collect::<BTreeSet<_>>(), own);
}

/// And the version is one.
#[test]
fn the_header_has_the_same_version() {
    let header = std::fs::read_to_string(concat!(env!("CARGO_MANIFEST_DIR"), "/../../include/fleecebutton.h")).unwrap();
    assert!(header.contains(&format!("#define FB_VERSION \"{}\"", env!("CARGO_PKG_VERSION"))));
}

/// Any arguments are answered: a number that is in range, or a refusal with words.
#[test]
fn blocks_take_any_numbers() {
    let mut random = noise(11);
    for _ in 0..20_000 {
        let (qp, flags, mode) = (random(60) as u8, random(18) as u8, random(11) as u8);
        let neighbours: [u8; 13] = std::array::from_fn(|_| random(256) as u8);
        let samples: [u8; 16] = std::array::from_fn(|_| random(256) as u8);
        let width = [200, 5_000, 70_000, u32::MAX][random(4) as usize];
        let numbers: [i32; 16] = std::array::from_fn(|_| random(width).wrapping_sub(width / 2) as i32);
        let (ac, four): ([i32; 15], [i32; 4]) = (std::array::from_fn(|k| numbers[k + 1]), std::array::from_fn(|k| numbers[k]));
        let told = [
            predict(&neighbours, flags, mode).err(),
            choose(&neighbours, flags, &samples).err(),
            forward(&numbers).err(),
            levels(qp, &numbers).err(),
            rebuild(qp, &samples, &numbers).err(),
            rebuild_with_dc(qp, &samples, numbers[0], &ac).err(),
            luma_dc_levels(qp, &numbers).err(),
            luma_dc_values(qp, &numbers).err(),
            chroma_dc_levels(qp, &four).err(),
            chroma_dc_values(qp, &four).err(),
            chroma_quantizer(qp, numbers[0]).err(),
            code_block(qp, flags, &neighbours, &samples).err(),
            promised_distance(qp).err(),
        ];
        assert!(told.iter().flatten().all(|refusal| refusal.name() != "UNKNOWN" && !refusal.to_string().contains("no words")));
    }
}
