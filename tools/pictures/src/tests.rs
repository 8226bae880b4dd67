use crate::deflate::{deflate, DISTANCES, LENGTHS};
use crate::grey;
use crate::png::{adler, crc, png};

#[test]
fn sums_are_the_published_ones() {
    assert_eq!(crc(b"123456789"), 0xCBF4_3926);
    assert_eq!(adler(b"Wikipedia"), 0x11E6_0398);
}

#[test]
fn deflated_bytes_come_back() {
    let mut number = 1_u32;
    let mut drawn = Vec::new();
    for k in 0..100_000_u32 {
        number = number.wrapping_mul(1664525).wrapping_add(1013904223);
        drawn.push(if k / 5000 % 2 == 0 { (number >> 24) as u8 } else { (k / 700) as u8 });
    }
    for data in [&b""[..], b"a", b"ab", b"abc", &[0; 1000], b"abcabcabcabcabd", &drawn] {
        assert_eq!(inflated(&deflate(data)), data);
    }
}

#[test]
fn a_picture_has_its_chunks() {
    let file = png(3, 2, &[1, 2, 3, 4, 5, 6]);
    assert_eq!(&file[12..16], b"IHDR");
    assert_eq!(&file[16..24], &[0, 0, 0, 3, 0, 0, 0, 2]);
    assert_eq!(&file[37..41], b"IDAT");
    let long = u32::from_be_bytes(file[33..37].try_into().unwrap()) as usize;
    // rows less the rows above, each behind its filter
    assert_eq!(inflated(&file[43..41 + long - 4]), [2, 1, 2, 3, 2, 3, 3, 3]);
    assert_eq!(&file[file.len() - 12..], &[0, 0, 0, 0, b'I', b'E', b'N', b'D', 0xAE, 0x42, 0x60, 0x82]);
}

#[test]
fn only_whole_pictures_are_read() {
    assert_eq!(grey(b"P5\n2 1\n255\nab"), Some((2, 1, &b"ab"[..])));
    for broken in [&b""[..], b"P5", b"P2\n2 1\n255\nab", b"P5\n2 1\n254\nab", b"P5\n2 1\n255\na", b"P5\n0 1\n255\n", b"P5\n2 1\n255"] {
        assert_eq!(grey(broken), None);
    }
}

/// A block of fixed codes, read as RFC 1951 has it.
fn inflated(bytes: &[u8]) -> Vec<u8> {
    let mut at = 0;
    let mut bit = || {
        at += 1;
        u32::from(bytes[(at - 1) / 8] >> ((at - 1) % 8) & 1)
    };
    fn number(bit: &mut impl FnMut() -> u32, bits: u32) -> usize {
        (0..bits).map(|k| bit() << k).sum::<u32>() as usize
    }
    assert_eq!(number(&mut bit, 3), 3);
    let mut out: Vec<u8> = Vec::new();
    loop {
        let mut code = (0..7).fold(0, |code, _| code << 1 | bit());
        let symbol = if code < 24 {
            256 + code
        } else {
            code = code << 1 | bit();
            match code {
                0x30..=0xBF => code - 0x30,
                0xC0..=0xC7 => 280 + code - 0xC0,
                _ => 144 + (code << 1 | bit()) - 0x190,
            }
        };
        match symbol {
            0..=255 => out.push(symbol as u8),
            256 => return out,
            _ => {
                let (first, bits) = LENGTHS[symbol as usize - 257];
                let length = first + number(&mut bit, bits);
                let code = (0..5).fold(0, |code, _| code << 1 | bit());
                let (first, bits) = DISTANCES[code as usize];
                let distance = first + number(&mut bit, bits);
                for _ in 0..length {
                    out.push(out[out.len() - distance]);
                }
            }
        }
    }
}
