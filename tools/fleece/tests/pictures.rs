//! Whole pictures: the largest one, padding, slices and colour.

mod common;

use common::*;
use std::fs;

/// 2048 x 2048: coded, decoded and compared.
#[test]
fn the_largest_picture() {
    let folder = folder("largest");
    let sample = |place: usize| {
        let (x, y) = (place % 2048, place / 2048);
        ((x / 48 % 5) * x + (y / 48 % 7) * y + x * y / 512 + (place * 2654435761) % (1 << 32) / (1 << 29)) as u8
    };
    let plane: Vec<u8> = (0..2048 * 2048).map(sample).collect();
    fs::write(folder.join("in.pgm"), netpbm("P5", 2048, 2048, &plane)).unwrap();
    fleece(&folder, &["code", "in.pgm", "out.fb", "rebuilt.pgm"]).done();
    fleece(&folder, &["decode", "out.fb", "back.pgm"]).done();
    assert_eq!(fleece(&folder, &["compare", "rebuilt.pgm", "back.pgm"]).done().text(), "equal: 2048 x 2048 samples\n");
    let text = fleece(&folder, &["inspect", "out.fb", "back.pgm"]).done().text();
    assert_eq!(text, "accepted: out.fb is decoded to back.pgm, 2048 x 2048 samples\n");
    let run = fleece(&folder, &["compare", "in.pgm", "back.pgm"]);
    assert_eq!(run.status, Some(1));
    assert!(run.text().ends_with(" of 4194304 samples differ\n"));
    let info = fleece(&folder, &["info", "out.fb"]).done().text();
    assert!(info.starts_with("size: 2048 x 2048 samples, 128 x 128 macroblocks\nslices: 1, of 128 rows of macroblocks\n"), "{info}");
    assert!(info.contains("\nlevels: 4194304, "), "{info}");
}

/// The sample of a padded picture that stands where this one of the picture does, or is repeated of it.
fn source(width: usize, height: usize, x: usize, y: usize) -> usize {
    y.min(height - 1) * width + x.min(width - 1)
}

#[test]
fn padding_repeats_and_says_how_often() {
    let folder = folder("pad");
    for (width, height) in [(17usize, 32usize), (1, 1), (31, 15), (32, 16), (16, 33)] {
        let (wide, high) = (width.next_multiple_of(16), height.next_multiple_of(16));
        let size =
            format!("{width} x {height} samples, and width and height have to be multiples of 16; --pad would make it {wide} x {high}");
        for (mark, depth) in [("P5", 1), ("P6", 3)] {
            let plane = busy(width * height * depth, 9);
            let padded = (0..wide * high * depth).map(|place| {
                let pixel = place / depth;
                plane[source(width, height, pixel % wide, pixel / wide) * depth + place % depth]
            });
            fs::write(folder.join("in"), netpbm(mark, width, height, &plane)).unwrap();
            fs::write(folder.join("by-hand"), netpbm(mark, wide, high, &padded.collect::<Vec<u8>>())).unwrap();
            let _ = fs::remove_file(folder.join("out"));
            if (width, height) != (wide, high) {
                fleece(&folder, &["code", "in", "out"]).told(1, &size);
                assert!(!folder.join("out").exists());
            }
            let run = fleece(&folder, &["code", "--pad", "in", "out", "rebuilt"]);
            let said = format!(
                "fleece: in: padded to {wide} x {high} samples: the last column is repeated {} times and the last row {} times\n",
                wide - width,
                high - height
            );
            assert_eq!((run.status, run.errors.as_str(), run.output.len()), (Some(0), said.as_str(), 0));
            fleece(&folder, &["code", "by-hand", "out-by-hand", "rebuilt-by-hand"]).done();
            for name in ["out", "rebuilt"] {
                assert!(fs::read(folder.join(name)).unwrap() == fs::read(folder.join(format!("{name}-by-hand"))).unwrap(), "{name}");
            }
        }
    }
    fs::write(folder.join("in"), pgm(2049, 3)).unwrap();
    let run = fleece(&folder, &["code", "--pad", "in", "none"]);
    assert!(
        run.status == Some(1) && run.errors.contains("SIZE (refusal 8): the picture is given as of 129 x 1 macroblocks"),
        "{}",
        run.errors
    );
    assert!(!folder.join("none").exists());
}

#[test]
fn slices_are_coded_as_pictures_of_their_own() {
    let folder = folder("rows");
    let plane = busy(32 * 80, 4);
    fs::write(folder.join("in"), netpbm("P5", 32, 80, &plane)).unwrap();
    fleece(&folder, &["code", "--rows", "2", "-q", "30", "in", "out", "rebuilt"]).done();
    assert!(fleece(&folder, &["info", "out"]).done().text().contains("\nslices: 3, of 2 rows of macroblocks\n"));
    fleece(&folder, &["decode", "out", "back"]).done();
    fleece(&folder, &["compare", "rebuilt", "back"]).done();
    let whole = fs::read(folder.join("rebuilt")).unwrap();
    for (number, slice) in plane.chunks(32 * 32).enumerate() {
        fs::write(folder.join("slice"), netpbm("P5", 32, slice.len() / 32, slice)).unwrap();
        fleece(&folder, &["code", "-q", "30", "slice", "file", "own"]).done();
        let own = fs::read(folder.join("own")).unwrap();
        assert_eq!(samples(&own), &samples(&whole)[number * 1024..][..slice.len()]);
    }
    // as many rows as there are is one slice, in the file of one
    fleece(&folder, &["code", "--rows", "5", "in", "five"]).done();
    fleece(&folder, &["code", "in", "one"]).done();
    assert_eq!(fs::read(folder.join("five")).unwrap(), fs::read(folder.join("one")).unwrap());
    for rows in ["0", "6"] {
        let words = format!("in: SIZE (refusal 8): the picture is given as of slices of {rows} rows of macroblocks, and of a picture of 5 rows they have 1 to 5");
        fleece(&folder, &["code", "--rows", rows, "in", "none"]).told(1, &words);
    }
    fleece(&folder, &["code", "-q", "52", "in", "none"]).told(1, "in: QUANTIZER (refusal 2): the QP is 52, and a QP is 0 to 51");
}

/// The rule by real numbers: luma of one sample, and chroma of the mean of four.
fn by_real_numbers(pixels: &[[f64; 3]]) -> [f64; 3] {
    let mean: [f64; 3] = std::array::from_fn(|part| pixels.iter().map(|pixel| pixel[part]).sum::<f64>() / pixels.len() as f64);
    let luma = |pixel: [f64; 3]| 0.299 * pixel[0] + 0.587 * pixel[1] + 0.114 * pixel[2];
    [luma(pixels[0]), 128.0 + (mean[2] - luma(mean)) / 1.772, 128.0 + (mean[0] - luma(mean)) / 1.402]
}

#[test]
fn the_conversion_is_the_stated_rule() {
    let mut pixels = busy(3 * 64 * 64, 8);
    pixels[..12].copy_from_slice(&[0, 0, 255, 0, 0, 255, 255, 0, 0, 255, 255, 255]);
    let [luma, cb, cr] = fleece::colour::to_planes(&pixels, 64, 64);
    assert_eq!([luma.len(), cb.len(), cr.len()], [4096, 1024, 1024]);
    let pixel = |x: usize, y: usize| -> [f64; 3] { std::array::from_fn(|part| f64::from(pixels[3 * (64 * y + x) + part])) };
    for (x, y) in (0..32).flat_map(|y| (0..32).map(move |x| (2 * x, 2 * y))) {
        let expected = by_real_numbers(&[pixel(x, y), pixel(x + 1, y), pixel(x, y + 1), pixel(x + 1, y + 1)]);
        let place = 32 * (y / 2) + x / 2;
        for (own, real) in [luma[64 * y + x], cb[place], cr[place]].into_iter().zip(expected) {
            assert!((f64::from(own) - real.min(255.0)).abs() < 0.51, "{own} for {real}");
        }
    }
    // and back
    let samples = fleece::colour::to_samples(&luma, &cb, &cr, 64);
    assert_eq!(samples.len(), pixels.len());
    for (place, pixel) in samples.chunks(3).enumerate() {
        let (light, square) = (f64::from(luma[place]), 32 * (place / 128) + place % 64 / 2);
        let (u, v) = (f64::from(cb[square]) - 128.0, f64::from(cr[square]) - 128.0);
        let real = [light + 1.402 * v, light - 0.344136286 * u - 0.714136286 * v, light + 1.772 * u];
        for (own, real) in pixel.iter().zip(real) {
            assert!((f64::from(*own) - real.clamp(0.0, 255.0)).abs() < 0.51, "{own} for {real}");
        }
    }
    // the primaries at full light, which chroma would leave by one
    let primaries = [[255, 0, 0], [0, 255, 0], [0, 0, 255], [0, 0, 0], [255, 255, 255]];
    let converted = primaries.map(|pixel| fleece::colour::to_planes(&pixel.repeat(4), 2, 2).map(|plane| plane[0]));
    assert_eq!(converted, [[76, 85, 255], [150, 44, 21], [29, 255, 107], [0, 128, 128], [255, 128, 128]]);
}

#[test]
fn grey_stays_grey() {
    let grey: Vec<u8> = (0..=255).flat_map(|light| [light; 3]).collect();
    let [luma, cb, cr] = fleece::colour::to_planes(&grey, 16, 16);
    assert_eq!(luma, (0..=255).collect::<Vec<u8>>());
    assert!(cb.iter().chain(&cr).all(|sample| *sample == 128));
    assert_eq!(fleece::colour::to_samples(&luma, &cb, &cr, 16), grey);
}

#[test]
fn colour_there_and_back() {
    let folder = folder("colour");
    fs::write(folder.join("in.ppm"), ppm(48, 32)).unwrap();
    fleece(&folder, &["code", "--cb-offset", "-3", "--cr-offset", "2", "--rows", "1", "in.ppm", "out.fb", "rebuilt.ppm"]).done();
    fleece(&folder, &["decode", "out.fb", "back.ppm"]).done();
    assert_eq!(fleece(&folder, &["compare", "rebuilt.ppm", "back.ppm"]).done().text(), "equal: 48 x 32 samples\n");
    let info = fleece(&folder, &["info", "out.fb"]).done().text();
    for line in ["planes: luma, Cb, Cr (colour, 4:2:0)", "records: 5 of 4x4, 1 of 16x16, 6 of chroma", "chroma offsets: Cb -3 Cr 2 (6)"] {
        assert!(info.lines().any(|it| it == line), "{info}");
    }
    // the file is the library's own, of the planes that the rule gives
    let picture = fs::read(folder.join("in.ppm")).unwrap();
    let [luma, cb, cr] = fleece::colour::to_planes(samples(&picture), 48, 32);
    let layout = fleecebutton::Layout { width: 3, height: 2, rows: 1 };
    let coding = fleecebutton::Coding { layout, qp: 28, cb_offset: -3, cr_offset: 2 };
    let coded = fleecebutton::code_picture(coding, fleecebutton::Planes { luma: &luma, cb: &cb, cr: &cr }).unwrap();
    assert_eq!(fs::read(folder.join("out.fb")).unwrap(), coded.file);
    let back = fs::read(folder.join("back.ppm")).unwrap();
    assert!(back.starts_with(b"P6\n48 32\n255\n"));
    assert_eq!(samples(&back), fleece::colour::to_samples(&coded.luma, &coded.cb, &coded.cr, 48));
    // luma alone, which inspection takes
    fleece(&folder, &["decode", "--luma", "out.fb", "luma.pgm"]).done();
    assert_eq!(fs::read(folder.join("luma.pgm")).unwrap(), netpbm("P5", 48, 32, &coded.luma));
    fleece(&folder, &["inspect", "out.fb", "luma.pgm"]).done();
    fleece(&folder, &["code", "--cr-offset", "13", "in.ppm", "none"])
        .told(1, "in.ppm: QUANTIZER (refusal 2): the offset of Cr is 13, and an offset is -12 to 12");
}
