//! The samples round a block, and which of them are present.

use crate::Refusal;

/// The neighbours of a block. A missing one is `None`, so whatever bytes were
/// lent in its place cannot reach a prediction.
#[derive(Clone, Copy)]
pub(crate) struct Neighbours {
    /// A to D.
    above: Option<[u8; 4]>,
    /// E to H.
    above_right: Option<[u8; 4]>,
    /// I to L, downwards.
    left: Option<[u8; 4]>,
    /// M.
    corner: Option<u8>,
}

const ABOVE: u8 = 1 << 0;
const LEFT: u8 = 1 << 1;
const CORNER: u8 = 1 << 2;
const ABOVE_RIGHT: u8 = 1 << 3;
const ALL: u8 = ABOVE | LEFT | CORNER | ABOVE_RIGHT;

impl Neighbours {
    /// From the lent order (M, A to H, I to L); FLAGS if a bit is set that
    /// has no meaning.
    pub(crate) fn new(lent: &[u8; 13], flags: u8) -> Result<Neighbours, Refusal> {
        if flags & !ALL != 0 {
            return Err(Refusal::FLAGS);
        }
        let four = |first: usize| {
            [
                lent[first],
                lent[first + 1],
                lent[first + 2],
                lent[first + 3],
            ]
        };
        let present = |bit: u8| flags & bit != 0;
        Ok(Neighbours {
            above: present(ABOVE).then(|| four(1)),
            above_right: present(ABOVE_RIGHT).then(|| four(5)),
            left: present(LEFT).then(|| four(9)),
            corner: present(CORNER).then_some(lent[0]),
        })
    }

    /// A to D.
    pub(crate) fn above(&self) -> Option<[u8; 4]> {
        self.above
    }

    /// I to L.
    pub(crate) fn left(&self) -> Option<[u8; 4]> {
        self.left
    }

    /// A to H, where D stands in for missing E to H (clause 8.3.1.2).
    pub(crate) fn above_eight(&self) -> Option<[u8; 8]> {
        let [a, b, c, d] = self.above?;
        let [e, f, g, h] = self.above_right.unwrap_or([d; 4]);
        Some([a, b, c, d, e, f, g, h])
    }

    /// The edge the block leans on, walked from L up to the corner and on to
    /// the right: L K J I M A B C D. The modes that need all of it predict
    /// along this one line.
    pub(crate) fn edge(&self) -> Option<[u8; 9]> {
        let [a, b, c, d] = self.above?;
        let [i, j, k, l] = self.left?;
        Some([l, k, j, i, self.corner?, a, b, c, d])
    }
}
