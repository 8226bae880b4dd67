//! A grey picture of 8 bits as PNG (the second edition of its specification, ISO/IEC 15948).

use crate::deflate::deflate;

const MARK: [u8; 8] = [0x89, b'P', b'N', b'G', b'\r', b'\n', 0x1A, b'\n'];

/// Each row is written as what it differs from the row above (filter 2): plain ground is then a run of zeros.
const UP: u8 = 2;

pub fn png(width: usize, height: usize, samples: &[u8]) -> Vec<u8> {
    let mut file = MARK.to_vec();
    let mut head = Vec::new();
    head.extend((width as u32).to_be_bytes());
    head.extend((height as u32).to_be_bytes());
    // 8 bits, grey, and the only methods of compression, filtering and order of rows that there are
    head.extend([8, 0, 0, 0, 0]);
    chunk(&mut file, b"IHDR", &head);
    let filtered = filtered(width, samples);
    let mut data = vec![0x78, 0x01];
    data.extend(deflate(&filtered));
    data.extend(adler(&filtered).to_be_bytes());
    chunk(&mut file, b"IDAT", &data);
    chunk(&mut file, b"IEND", &[]);
    file
}

fn filtered(width: usize, samples: &[u8]) -> Vec<u8> {
    let mut above = vec![0; width];
    let mut filtered = Vec::with_capacity(samples.len() + samples.len() / width.max(1));
    for row in samples.chunks_exact(width) {
        filtered.push(UP);
        filtered.extend(row.iter().zip(&above).map(|(here, there): (&u8, &u8)| here.wrapping_sub(*there)));
        above.copy_from_slice(row);
    }
    filtered
}

fn chunk(file: &mut Vec<u8>, kind: &[u8; 4], data: &[u8]) {
    file.extend((data.len() as u32).to_be_bytes());
    let from = file.len();
    file.extend(kind);
    file.extend(data);
    let sum = crc(&file[from..]);
    file.extend(sum.to_be_bytes());
}

pub fn crc(bytes: &[u8]) -> u32 {
    let mut sum = u32::MAX;
    for byte in bytes {
        sum ^= u32::from(*byte);
        for _ in 0..8 {
            sum = if sum & 1 == 1 { sum >> 1 ^ 0xEDB8_8320 } else { sum >> 1 };
        }
    }
    !sum
}

pub fn adler(bytes: &[u8]) -> u32 {
    let (mut a, mut b) = (1_u32, 0_u32);
    for byte in bytes {
        a = (a + u32::from(*byte)) % 65521;
        b = (b + a) % 65521;
    }
    b << 16 | a
}
