//! A macroblock's sixteen blocks.

/// The blocks of a macroblock by rows.
pub(crate) const BLOCKS: [[usize; 4]; 4] =
    [[0, 1, 4, 5], [2, 3, 6, 7], [8, 9, 12, 13], [10, 11, 14, 15]];

/// Where a block stands in its macroblock, in blocks.
pub(crate) fn column_and_row(block: usize) -> (usize, usize) {
    let row = BLOCKS.iter().position(|row| row.contains(&block));
    let row = row.expect("there are 16 blocks");
    let column = BLOCKS[row].iter().position(|&other| other == block);
    (column.expect("this row has the block"), row)
}
