//! The bitmap of the hard disk edition, as its readers see it: where each byte of it belongs.

/// The bytes of a bitmap block.
pub const BITMAP_BLOCK: usize = 1_024;
/// The bytes before the bits.
const HEADER: usize = 12;
/// The bits of a bitmap block.
pub const BITS: usize = (BITMAP_BLOCK - HEADER) * 8;

/// The bytes of the bitmap of a disk: a bitmap block for every 8,096 blocks behind last reserved.
pub fn length(blocks: usize, last_reserved: u16) -> usize {
    (blocks - 1 - usize::from(last_reserved)).div_ceil(BITS) * BITMAP_BLOCK
}

/// What a byte of a bitmap speaks of.
#[derive(Clone, Copy, Debug, PartialEq, Eq)]
pub enum Speaks {
    /// The mark, the sequence number or the zeros between them.
    Header,
    /// Eight bits, of which the highest is that of this bit of the whole bitmap, from 0.
    Bits(usize),
}

/// The bitmap block of a byte, from 0, and what the byte speaks of.
pub fn place(byte: usize) -> (usize, Speaks) {
    let (block, within) = (byte / BITMAP_BLOCK, byte % BITMAP_BLOCK);
    match within.checked_sub(HEADER) {
        None => (block, Speaks::Header),
        Some(at) => (block, Speaks::Bits(block * BITS + at * 8)),
    }
}

#[cfg(test)]
mod tests {
    use super::*;

    #[test]
    fn lengths() {
        // 8,096 blocks behind last reserved need one bitmap block, 8,097 two, none needs none.
        let needs = [(5, 4), (6, 4), (8_101, 4), (8_102, 4), (65_535, 2)];
        assert_eq!(needs.map(|(blocks, last)| length(blocks, last)), [0, 1_024, 1_024, 2_048, 9_216]);
    }

    #[test]
    fn places() {
        assert_eq!(
            [0, 11, 12, 1_023].map(place),
            [(0, Speaks::Header), (0, Speaks::Header), (0, Speaks::Bits(0)), (0, Speaks::Bits(8_088)),]
        );
        assert_eq!([1_024, 1_037].map(place), [(1, Speaks::Header), (1, Speaks::Bits(8_104))]);
    }
}
