//! Deflate (RFC 1951) in one block of fixed codes, with repeats found by their first three bytes. It is written here, and not taken from a
//! library, so that the same picture is the same file on every machine.

/// How far back a repeat may begin, and how long it may be.
const WINDOW: usize = 32768;
const LONGEST: usize = 258;
const SHORTEST: usize = 3;

/// Lengths and distances: the first of each code and how many bits more it has.
pub const LENGTHS: [(usize, u32); 29] = [
    (3, 0),
    (4, 0),
    (5, 0),
    (6, 0),
    (7, 0),
    (8, 0),
    (9, 0),
    (10, 0),
    (11, 1),
    (13, 1),
    (15, 1),
    (17, 1),
    (19, 2),
    (23, 2),
    (27, 2),
    (31, 2),
    (35, 3),
    (43, 3),
    (51, 3),
    (59, 3),
    (67, 4),
    (83, 4),
    (99, 4),
    (115, 4),
    (131, 5),
    (163, 5),
    (195, 5),
    (227, 5),
    (258, 0),
];
pub const DISTANCES: [(usize, u32); 30] = [
    (1, 0),
    (2, 0),
    (3, 0),
    (4, 0),
    (5, 1),
    (7, 1),
    (9, 2),
    (13, 2),
    (17, 3),
    (25, 3),
    (33, 4),
    (49, 4),
    (65, 5),
    (97, 5),
    (129, 6),
    (193, 6),
    (257, 7),
    (385, 7),
    (513, 8),
    (769, 8),
    (1025, 9),
    (1537, 9),
    (2049, 10),
    (3073, 10),
    (4097, 11),
    (6145, 11),
    (8193, 12),
    (12289, 12),
    (16385, 13),
    (24577, 13),
];

/// Bits, the lowest of each byte first.
#[derive(Default)]
struct Bits {
    bytes: Vec<u8>,
    held: u32,
    count: u32,
}

impl Bits {
    /// So many bits of a number, the lowest first.
    fn number(&mut self, value: u32, bits: u32) {
        for k in 0..bits {
            self.held |= (value >> k & 1) << self.count;
            self.count += 1;
            if self.count == 8 {
                self.bytes.push(self.held as u8);
                self.held = 0;
                self.count = 0;
            }
        }
    }

    /// A code, whose highest bit comes first.
    fn code(&mut self, value: u32, bits: u32) {
        for k in (0..bits).rev() {
            self.number(value >> k, 1);
        }
    }

    /// The fixed code of a literal or a length (RFC 1951, 3.2.6).
    fn symbol(&mut self, symbol: u32) {
        match symbol {
            0..=143 => self.code(0x30 + symbol, 8),
            144..=255 => self.code(0x190 + symbol - 144, 9),
            256..=279 => self.code(symbol - 256, 7),
            _ => self.code(0xC0 + symbol - 280, 8),
        }
    }

    fn repeat(&mut self, length: usize, distance: usize) {
        let (code, rest, bits) = coded(&LENGTHS, length);
        self.symbol(257 + code);
        self.number(rest, bits);
        let (code, rest, bits) = coded(&DISTANCES, distance);
        self.code(code, 5);
        self.number(rest, bits);
    }

    fn end(mut self) -> Vec<u8> {
        if self.count > 0 {
            self.bytes.push(self.held as u8);
        }
        self.bytes
    }
}

/// The code of a value, what it is more than the code's first, and in how many bits that is said.
fn coded(table: &[(usize, u32)], value: usize) -> (u32, u32, u32) {
    let code = table.iter().rposition(|&(first, _)| first <= value).unwrap_or(0);
    let (first, bits) = table[code];
    (code as u32, (value - first) as u32, bits)
}

pub fn deflate(data: &[u8]) -> Vec<u8> {
    let mut bits = Bits::default();
    // the last block, of fixed codes
    bits.number(1, 1);
    bits.number(1, 2);
    // where three bytes stood last, by a number made of them; the place is counted from 1
    let mut last = vec![0_usize; 1 << 15];
    let mut at = 0;
    while at < data.len() {
        let mut length = 0;
        let mut distance = 0;
        if at + SHORTEST <= data.len() {
            let slot = slot_of(&data[at..]);
            let before = last[slot];
            last[slot] = at + 1;
            if before > 0 && at + 1 - before <= WINDOW {
                distance = at + 1 - before;
                let most = LONGEST.min(data.len() - at);
                length = (0..most).take_while(|&k| data[at + k] == data[at + k - distance]).count();
            }
        }
        if length < SHORTEST {
            bits.symbol(u32::from(data[at]));
            at += 1;
            continue;
        }
        bits.repeat(length, distance);
        for place in at + 1..at + length {
            if place + SHORTEST <= data.len() {
                last[slot_of(&data[place..])] = place + 1;
            }
        }
        at += length;
    }
    bits.symbol(256);
    bits.end()
}

fn slot_of(data: &[u8]) -> usize {
    let mixed = u32::from(data[0]) << 16 | u32::from(data[1]) << 8 | u32::from(data[2]);
    (mixed.wrapping_mul(2654435761) >> 17) as usize
}
