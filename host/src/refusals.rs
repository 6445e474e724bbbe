//! The numbers that calls answer, and what they mean.

use std::fmt;

/// A refusal: the number that a call answered, never 0.
#[derive(Clone, Copy, Debug, PartialEq, Eq, Hash)]
#[non_exhaustive]
pub enum Error {
    ImageSize,
    TableSize,
    DiskType,
    RootBlock,
    AnodeBlock,
    FixedAnode,
    AnodeRange,
    ChainLinks,
    FreeList,
    TwoOwners,
    NoOwner,
    DirectoryBlock,
    EntryAnode,
    NamedTwice,
    FileSize,
    UnnamedChain,
    NamesAlike,
    BadArgument,
    NoDirectory,
    NotFound,
    AlreadyThere,
    IsDirectory,
    NotEmpty,
    PastEnd,
    NoFreeBlock,
    NoFreeAnode,
    ReportFull,
    WritesSize,
    BitmapLength,
    NotOfForm,
    TooLong,
    OutputSize,
    /// A number that this package does not know.
    Unknown(u32),
}

/// Every refusal with its number and what it means. The header's names for them and its words are the same.
pub const REFUSALS: [(Error, u32, &str); 32] = [
    (
        Error::ImageSize,
        1,
        "the image is not a whole number of 512-byte blocks, or has fewer than 5 or more than 65,535 of them",
    ),
    (Error::TableSize, 2, "a table is too short"),
    (Error::DiskType, 3, "the disk type is not PFS\\0"),
    (Error::RootBlock, 4, "the root block's reserved range or the length of the disk's name is wrong"),
    (Error::AnodeBlock, 5, "an anode block is missing, out of place, or not marked as the one it should be"),
    (Error::FixedAnode, 6, "one of the fixed anodes 0, 1, 2 and 5 is not as it must be"),
    (
        Error::AnodeRange,
        7,
        "an anode is half cleared, reaches past the end of the disk, or is followed by one that is not in use",
    ),
    (Error::ChainLinks, 8, "the chains of anodes run together, never end, or run into a fixed one"),
    (
        Error::FreeList,
        9,
        "the free list does not pass through anode 2, or has blocks on the wrong side of last reserved",
    ),
    (Error::TwoOwners, 10, "a block has two owners"),
    (Error::NoOwner, 11, "a block has no owner"),
    (Error::DirectoryBlock, 12, "a directory block or an entry in it breaks the rules"),
    (Error::EntryAnode, 13, "an entry names an anode that is under 6, missing, free, or not a chain's head"),
    (Error::NamedTwice, 14, "two entries name the same anode"),
    (Error::FileSize, 15, "a file's chain does not hold as many blocks as its size needs"),
    (Error::UnnamedChain, 16, "a chain is named by no entry that the root leads to"),
    (Error::NamesAlike, 17, "two entries of a directory have the same name, capitals A to Z counted as small letters"),
    (
        Error::BadArgument,
        20,
        "an argument is against the rules: type, name, comment, or the shape of the disk to format",
    ),
    (Error::NoDirectory, 21, "there is no such directory"),
    (Error::NotFound, 22, "the name or place is not there"),
    (Error::AlreadyThere, 23, "the name is already there"),
    (Error::IsDirectory, 24, "it is a directory, and a file is needed"),
    (Error::NotEmpty, 25, "the directory is not empty"),
    (Error::PastEnd, 26, "the bytes asked for reach past the file's size"),
    (Error::NoFreeBlock, 27, "not enough blocks are free"),
    (Error::NoFreeAnode, 28, "no anode is free, and the anode table cannot grow"),
    (Error::ReportFull, 31, "the report takes no further disk: it has 100,000, or a sum above 10,000,000,000,000"),
    (Error::WritesSize, 32, "the buffer is too short for the block writes"),
    (Error::BitmapLength, 40, "the bitmap has not as many blocks as the disk needs"),
    (Error::NotOfForm, 50, "not a settings file of the form asked for"),
    (Error::TooLong, 51, "a time is longer than the old form can hold"),
    (Error::OutputSize, 52, "the output buffer is too short"),
];

impl Error {
    /// What an answer says: done, or a refusal.
    pub fn of(answer: u32) -> Result<(), Error> {
        let known = REFUSALS.iter().find(|row| row.1 == answer).map(|row| row.0);
        match answer {
            0 => Ok(()),
            number => Err(known.unwrap_or(Error::Unknown(number))),
        }
    }

    pub fn number(self) -> u32 {
        match self {
            Error::Unknown(number) => number,
            known => REFUSALS.iter().find(|row| row.0 == known).map_or(0, |row| row.1),
        }
    }

    /// What the number means.
    pub fn words(self) -> &'static str {
        REFUSALS.iter().find(|row| row.0 == self).map_or("unknown number", |row| row.2)
    }

    /// Does it say that the image is no sound disk?
    pub fn is_damage(self) -> bool {
        (1..20).contains(&self.number()) && self != Error::TableSize
    }
}

impl fmt::Display for Error {
    fn fmt(&self, f: &mut fmt::Formatter) -> fmt::Result {
        write!(f, "{}: {}", self.number(), self.words())
    }
}

impl std::error::Error for Error {}

#[cfg(test)]
mod tests {
    use super::*;

    #[test]
    fn every_number_has_words() {
        let numbers: Vec<u32> = REFUSALS.iter().map(|row| row.1).collect();
        assert_eq!(numbers, (1..=17).chain(20..=28).chain([31, 32, 40]).chain(50..=52).collect::<Vec<u32>>());
        for (error, number, words) in REFUSALS {
            assert_eq!((Error::of(number), error.number(), error.words()), (Err(error), number, words));
        }
        assert_eq!(Error::NoFreeBlock.to_string(), "27: not enough blocks are free");
        assert_eq!(Error::of(99), Err(Error::Unknown(99)));
        assert_eq!(Error::Unknown(99).to_string(), "99: unknown number");
        assert_eq!(Error::of(0), Ok(()));
        let damage = (0..60).filter(|&number| Error::of(number).is_err_and(Error::is_damage));
        assert!(damage.eq([1].into_iter().chain(3..20)));
    }
}
