//! Free space as the bitmap of the hard disk edition: blocks of 1,024 bytes, each with a mark, a sequence number and
//! 253 longwords. A set bit means available; the highest bit of a longword comes first, and the first bit of all is that
//! of the block behind last reserved.

use super::check::{number, survey, Survey};
use super::layout::FREE_LIST;

/// The bytes of a bitmap block.
const BITMAP_BLOCK: usize = 1_024;
const MARK: &[u8; 2] = b"BM";
/// Where the four bytes of the sequence number are.
const SEQUENCE: usize = 8;
/// Where the longwords begin.
const LONGWORDS: usize = 12;
/// The bits of a bitmap block.
const BITS: usize = (BITMAP_BLOCK - LONGWORDS) * 8;

/// The bitmap of a disk.
fn made(survey: &Survey) -> Vec<u8> {
    let mut available = vec![false; survey.blocks];
    for block in survey.table.chain_blocks(FREE_LIST) {
        available[usize::from(block)] = true;
    }
    let bits = &available[usize::from(survey.last_reserved) + 1..];
    bits.chunks(BITS).enumerate().flat_map(|(sequence, bits)| bitmap_block(sequence, bits)).collect()
}

/// A bitmap block with its first bits; the others are 0.
fn bitmap_block(sequence: usize, bits: &[bool]) -> Vec<u8> {
    let mut bytes = vec![0; BITMAP_BLOCK];
    bytes[..2].copy_from_slice(MARK);
    bytes[SEQUENCE..SEQUENCE + 4].copy_from_slice(&(sequence as u32).to_be_bytes());
    for (place, longword) in bits.chunks(32).enumerate() {
        let mut value = 0u32;
        for (bit, &available) in longword.iter().enumerate() {
            value += u32::from(available) << (31 - bit);
        }
        bytes[LONGWORDS + 4 * place..][..4].copy_from_slice(&value.to_be_bytes());
    }
    bytes
}

/// The bitmap that fits the buffer, or 40.
fn fitting(survey: &Survey, length: usize) -> Result<Vec<u8>, u32> {
    let bitmap = made(survey);
    match bitmap.len() == length {
        true => Ok(bitmap),
        false => Err(40),
    }
}

/// Fills the buffer with the bitmap; a refused call leaves it.
pub fn bitmap(image: &[u8], blocks: &mut [u16], anodes: &mut [u16], buffer: &mut [u8]) -> u32 {
    let made = survey(image, blocks, anodes).and_then(|survey| fitting(&survey, buffer.len()));
    number(made.map(|bitmap| buffer.copy_from_slice(&bitmap)))
}

/// Compares a bitmap with the disk: 1 and the place of the first byte that differs, or zeros.
pub fn bitmap_differs(
    image: &[u8],
    blocks: &mut [u16],
    anodes: &mut [u16],
    bitmap: &[u8],
    fields: &mut [u32; 2],
) -> u32 {
    *fields = [0; 2];
    let made = survey(image, blocks, anodes).and_then(|survey| fitting(&survey, bitmap.len()));
    number(made.map(|made| {
        if let Some(place) = made.iter().zip(bitmap).position(|(one, other)| one != other) {
            *fields = [1, place as u32];
        }
    }))
}
