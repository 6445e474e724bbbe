//! `bitmap`: free space as the hard disk edition's bitmap, made or checked.

use std::ffi::OsStr;
use std::io::Write;
use std::os::unix::ffi::OsStrExt;

use super::arguments::Arguments;
use super::store::{self, load_sound, refused_disk};
use super::{text, Done, Failure};
use crate::bitmap::{place, Speaks};
use crate::calls::{Library, BLOCK};
use crate::disk::Disk;

pub fn bitmap<L: Library>(arguments: &Arguments, out: &mut dyn Write) -> Done {
    let name = arguments.operand(0);
    let mut disk = load_sound::<L>(name)?;
    let own = disk.bitmap().map_err(refused_disk(name))?;
    match arguments.value("--check") {
        None => Ok(out.write_all(&own)?),
        Some(file) => check(&mut disk, &own, OsStr::from_bytes(file), out),
    }
}

/// Compares the bitmap in a file with the disk's own.
fn check<L: Library>(disk: &mut Disk<L>, own: &[u8], file: &OsStr, out: &mut dyn Write) -> Done {
    let bitmap = store::read(file)?;
    let about = text::show_os(file);
    let difference = disk.bitmap_difference(&bitmap).map_err(|error| {
        let needed = own.len();
        Failure::Refused(format!("{about}: {error}: {} bytes, and the disk needs {needed}", bitmap.len()))
    })?;
    let Some(byte) = difference else {
        return Ok(writeln!(out, "the bitmap is the disk's")?);
    };
    let first = usize::from(disk.label().map_err(refused_disk(file))?.last_reserved) + 1;
    writeln!(out, "{}", told(byte, bitmap[byte], own[byte], first, disk.image().len() / BLOCK))?;
    Err(Failure::Answered(1))
}

/// A difference in words: the byte, its bitmap block, and the first disk block whose bit differs. The bits begin with disk
/// block `first`.
fn told(byte: usize, theirs: u8, own: u8, first: usize, blocks: usize) -> String {
    let (bitmap_block, speaks) = place(byte);
    let about = match speaks {
        Speaks::Header => format!("its mark, its number or the zeros between: {theirs}, should be {own}"),
        Speaks::Bits(bit) => {
            let differing = (theirs ^ own).leading_zeros() as usize;
            let block = first + bit + differing;
            match (block < blocks, own & (0x80 >> differing)) {
                (false, _) => String::from("a bit past the last block of the disk is set"),
                (true, 0) => format!("disk block {block} is marked available, and is not free"),
                (true, _) => format!("disk block {block} is not marked available, and is free"),
            }
        }
    };
    format!("byte {byte}, in bitmap block {bitmap_block}: {about}")
}

#[cfg(test)]
mod tests {
    use super::*;

    #[test]
    fn differences_in_words() {
        assert_eq!(
            told(9, 1, 0, 64, 1_760),
            "byte 9, in bitmap block 0: its mark, its number or the zeros between: 1, should be 0"
        );
        assert_eq!(
            told(13, 0xFF, 0xDF, 64, 1_760),
            "byte 13, in bitmap block 0: disk block 74 is marked available, and is not free"
        );
        assert_eq!(
            told(12, 0x7F, 0xFF, 64, 1_760),
            "byte 12, in bitmap block 0: disk block 64 is not marked available, and is free"
        );
        assert_eq!(
            told(1_023, 1, 0, 64, 1_760),
            "byte 1023, in bitmap block 0: a bit past the last block of the disk is set"
        );
    }
}
