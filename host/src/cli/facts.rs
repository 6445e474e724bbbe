//! Refusals with the facts that explain them.

use std::fmt::Display;

use super::edit::{Edit, Way};
use super::Failure;
use crate::anodes::MOST_ANODE_BLOCKS;
use crate::calls::{Library, BLOCK};
use crate::disk::{Disk, Error, Format, Kind, New, Owner};

/// A refusal, and what else is known about it.
pub struct Told {
    pub error: Error,
    facts: String,
}

impl From<Error> for Told {
    fn from(error: Error) -> Self {
        Told { error, facts: String::new() }
    }
}

impl Told {
    pub fn new(error: Error, facts: impl Into<String>) -> Self {
        Told { error, facts: facts.into() }
    }

    /// As a failure that says what it was about.
    pub fn about(self, about: impl Display) -> Failure {
        let facts = if self.facts.is_empty() { String::new() } else { format!(": {}", self.facts) };
        super::refused_with(about, self.error, &facts)
    }
}

/// The free blocks of a sound disk, as the last call left the table.
fn free_blocks<L: Library>(disk: &Disk<L>) -> usize {
    disk.owners().filter(|owner| *owner == Owner::Free).count()
}

fn blocks(count: u64) -> String {
    match count {
        1 => String::from("1 block"),
        _ => format!("{count} blocks"),
    }
}

/// Makes an entry, or tells why not.
pub fn make<L: Library>(edit: &mut Edit<L>, directory: u16, new: &New) -> Result<(), Told> {
    let made = edit.make(directory, new);
    made.map_err(|error| match (error, edit.way()) {
        (Error::BadArgument, _) => Told::new(error, wrong_entry(new)),
        (_, Way::InPlace) => in_place(&edit.disk, error, 1 + u64::from(new.kind == Kind::Directory)),
        (Error::NoFreeBlock, _) => {
            let needed = match new.kind {
                Kind::Directory => {
                    "a directory needs 1 block, and 1 more if its parent has no room for the entry"
                }
                Kind::File => "the directory needs 1 block more for the entry",
            };
            let growth = if edit.disk.anodes().free == 0 { ", and 1 for more anodes" } else { "" };
            Told::new(error, format!("{needed}{growth}; {} free", free_blocks(&edit.disk)))
        }
        (Error::NoFreeAnode, _) => Told::new(error, no_anode(&edit.disk)),
        _ => error.into(),
    })
}

/// The blocks of a file; 0 if there is none of that name.
fn held<L: Library>(disk: &mut Disk<L>, directory: u16, name: &[u8]) -> u64 {
    disk.find(directory, name).map_or(0, |entry| u64::from(entry.size.div_ceil(BLOCK as u32)))
}

/// Gives a file another size, or tells why not.
pub fn resize<L: Library>(edit: &mut Edit<L>, directory: u16, name: &[u8], size: u64) -> Result<(), Told> {
    let resized = edit.resize(directory, name, size);
    let needed = size.div_ceil(BLOCK as u64);
    resized.map_err(|error| match (error, edit.way()) {
        (_, Way::InPlace) => {
            let entry = edit.disk.find(directory, name);
            let differs = entry.is_ok_and(|entry| u64::from(entry.size) != size);
            in_place(&edit.disk, error, needed + u64::from(differs))
        }
        (Error::NoFreeBlock, _) => {
            let more = needed.saturating_sub(held(&mut edit.disk, directory, name));
            let free = free_blocks(&edit.disk);
            // There were enough, but the anode table took one.
            let growth = if more <= free as u64 { " and 1 for more anodes" } else { "" };
            Told::new(error, format!("{} more needed{growth}, {free} free", blocks(more)))
        }
        (Error::NoFreeAnode, _) => Told::new(error, no_anode(&edit.disk)),
        _ => error.into(),
    })
}

/// Replaces the first bytes of a file, or tells why not.
pub fn write<L: Library>(edit: &mut Edit<L>, directory: u16, name: &[u8], bytes: &[u8]) -> Result<(), Told> {
    let written = edit.write(directory, name, bytes);
    written.map_err(|error| match edit.way() {
        Way::InPlace => {
            let held = held(&mut edit.disk, directory, name);
            in_place(&edit.disk, error, held)
        }
        Way::Replaced => error.into(),
    })
}

/// Removes a file or an empty directory, or tells why not.
pub fn remove<L: Library>(edit: &mut Edit<L>, directory: u16, name: &[u8]) -> Result<(), Told> {
    let removed = edit.remove(directory, name);
    removed.map_err(|error| match edit.way() {
        Way::InPlace => in_place(&edit.disk, error, 1),
        Way::Replaced => error.into(),
    })
}

/// What is known of a safe change that was refused, as it left the tables: it takes so many blocks for a file and for
/// directories anew, and one for each anode block.
fn in_place<L: Library>(disk: &Disk<L>, error: Error, new: u64) -> Told {
    match error {
        Error::NoFreeBlock => {
            let (needed, free) = (new + disk.anodes().blocks as u64, free_blocks(disk));
            let facts = format!("a safe change needs {} at the same time, {free} free", blocks(needed));
            Told::new(error, facts)
        }
        Error::NoFreeAnode => {
            let needs = "each file, each directory and each piece of one or of free space needs an anode";
            Told::new(error, format!("{needs}, and a safe change never brings more of them"))
        }
        _ => error.into(),
    }
}

/// What is known of a disk that has no anode left, as the last call left the tables.
fn no_anode<L: Library>(disk: &Disk<L>) -> String {
    let why = match disk.anodes().blocks {
        MOST_ANODE_BLOCKS => format!("all {MOST_ANODE_BLOCKS} anode blocks are there"),
        _ => String::from("no block is left for more of them"),
    };
    format!("each file, each directory and each piece of one needs an anode, all are in use, and {why}")
}

/// Which rule of the entry's name or comment is broken.
fn wrong_entry(new: &New) -> String {
    let (name, comment) = (new.name, new.comment);
    if let Some(byte) = name.iter().find(|byte| [0, b':', b'/'].contains(byte)) {
        let byte = if *byte == 0 { String::from("0 byte") } else { format!("'{}'", char::from(*byte)) };
        return format!("no name can have a {byte}");
    }
    match (name.len(), comment.len()) {
        (0, _) => String::from("the name is empty"),
        (108.., _) => format!("the name has {} bytes, and 107 are the most", name.len()),
        (_, 80..) => format!("the comment has {} bytes, and 79 are the most", comment.len()),
        _ => String::from("its type"),
    }
}

/// Which rule of a disk to format is broken.
pub fn wrong_format(format: &Format, blocks: usize) -> String {
    let Format { last_reserved, anode_blocks, name, .. } = format;
    let fewest = 3 + u32::from(*anode_blocks);
    if !(5..=65_535).contains(&blocks) {
        return format!("{blocks} blocks, and a disk has 5 to 65535");
    }
    match (name.len(), anode_blocks) {
        (0, _) => String::from("the disk's name is empty"),
        (32.., _) => format!("the disk's name has {} bytes, and 31 are the most", name.len()),
        (_, 0 | 43..) => format!("{anode_blocks} anode blocks, and a disk has 1 to 42"),
        _ => {
            format!("last reserved is {last_reserved}, and must be {fewest} to {}", blocks.saturating_sub(1))
        }
    }
}

#[cfg(test)]
mod tests {
    use super::*;

    #[test]
    fn which_limit_is_broken() {
        let (long, comment) = ([b'x'; 108], [b'y'; 80]);
        let wrong = |name: &[u8], comment: &[u8]| wrong_entry(&New { comment, ..New::file(name) });
        assert_eq!(wrong(b"", b""), "the name is empty");
        assert_eq!(wrong(&long, &comment), "the name has 108 bytes, and 107 are the most");
        assert_eq!(wrong(b"a:b", b""), "no name can have a ':'");
        assert_eq!(wrong(b"a\0b", b""), "no name can have a 0 byte");
        assert_eq!(wrong(b"a", &comment), "the comment has 80 bytes, and 79 are the most");
        let format = |last, anode_blocks, name| wrong_format(&Format::new(last, anode_blocks, name), 20);
        assert_eq!(wrong_format(&Format::new(9, 1, b"x"), 4), "4 blocks, and a disk has 5 to 65535");
        assert_eq!(format(9, 1, b""), "the disk's name is empty");
        assert_eq!(format(9, 1, &long[..32]), "the disk's name has 32 bytes, and 31 are the most");
        assert_eq!(format(9, 43, b"x"), "43 anode blocks, and a disk has 1 to 42");
        assert_eq!(format(3, 1, b"x"), "last reserved is 3, and must be 4 to 19");
    }
}
