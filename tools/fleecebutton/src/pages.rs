//! Areas of many pages. Each small page costs a fault when it is touched first, three thousand for a file and its plane of 2048x2048; some
//! systems have large pages for those who ask.

use crate::calls::ask_for_large_pages;

/// An empty vector with room for so many bytes, in large pages where the system has them for those who ask.
pub fn room(bytes: usize) -> Vec<u8> {
    let room = Vec::with_capacity(bytes);
    ask_for_large_pages(room.as_ptr(), bytes);
    room
}

/// So many zeros, likewise.
pub(crate) fn zeros(bytes: usize) -> Vec<u8> {
    let zeros = vec![0; bytes];
    ask_for_large_pages(zeros.as_ptr(), bytes);
    zeros
}

#[cfg(test)]
mod tests {
    use super::*;

    #[test]
    fn areas_are_as_without_the_hint() {
        for bytes in [0, 1, 4096, (2 << 20) - 1, 2 << 20, (8 << 20) + 5] {
            let mut room = room(bytes);
            assert!(room.is_empty() && room.capacity() >= bytes);
            room.resize(bytes, 7);
            assert!(room.iter().all(|byte| *byte == 7));
            assert_eq!(zeros(bytes), vec![0; bytes]);
        }
    }
}
