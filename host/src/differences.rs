//! How two disks differ: the differences as the calls hand them out, and the trait of whoever compares.

use crate::calls::{Lent, Library};
use crate::disk::Disk;
use crate::refusals::Error;

/// The type differs: a file here, a directory there.
pub const TYPE: u32 = 1;
/// The bytes of the name differ, by capitals alone.
pub const NAME: u32 = 2;
/// The comment differs.
pub const COMMENT: u32 = 4;
/// The date and time differ.
pub const STAMPS: u32 = 8;
/// The protection bits differ.
pub const PROTECTION: u32 = 16;
/// The size differs; only where both are files.
pub const SIZE: u32 = 32;

/// How many numbers a difference has: its kind, the entry's byte place in each image, the fields that differ, the first byte
/// that differs, and how many do.
pub const NUMBERS: usize = 6;

/// The kinds of differences, as the first of the numbers.
const ONLY_FIRST: u32 = 1;
const ONLY_SECOND: u32 = 2;

/// A difference, with the byte of each image where its entry begins.
#[derive(Clone, Copy, Debug, PartialEq, Eq)]
pub enum Difference {
    OnlyFirst {
        place: u32,
    },
    OnlySecond {
        place: u32,
    },
    Both {
        first: u32,
        second: u32,
        /// The fields that differ, added up.
        fields: u32,
        bytes: Option<Bytes>,
    },
}

/// The bytes in which two files differ. Past the end of the shorter one every byte does.
#[derive(Clone, Copy, Debug, PartialEq, Eq)]
pub struct Bytes {
    /// The first that differs, from 0.
    pub first: u32,
    /// How many differ, never 0.
    pub many: u32,
}

impl Difference {
    /// What six numbers of the interface say.
    pub fn of(numbers: [u32; NUMBERS]) -> Self {
        let [kind, first, second, fields, byte, many] = numbers;
        match kind {
            ONLY_FIRST => Difference::OnlyFirst { place: first },
            ONLY_SECOND => Difference::OnlySecond { place: second },
            _ => {
                let bytes = (many > 0).then_some(Bytes { first: byte, many });
                Difference::Both { first, second, fields, bytes }
            }
        }
    }
}

/// Whoever compares disks. Each image has its own tables, and neither image changes. The second is checked only after the
/// first is accepted, else its tables stay as they came.
pub trait Comparer {
    /// The difference at a place from 0. Answers 0, the refusal of the check of one image, or 22 past the last difference.
    /// The fields are which image was refused (1, 2, or 0 for neither) and the six numbers of the difference; 0 where they
    /// have no meaning.
    fn compare(first: Lent, second: Lent, place: u64, fields: &mut [u32; 1 + NUMBERS]) -> u32;

    /// The differences from a place on, six numbers each, as many as the buffer holds. Answers 0 or the refusal of the check
    /// of one image. The fields are which image was refused, and how many differences were handed out: fewer than the buffer
    /// holds means that there are no more. A refusal leaves the buffer, and what lies behind the differences always stays.
    fn differences(first: Lent, second: Lent, place: u64, out: &mut [u32], fields: &mut [u32; 2]) -> u32;
}

/// One of the two disks.
#[derive(Clone, Copy, Debug, PartialEq, Eq)]
pub enum Which {
    First,
    Second,
}

impl Which {
    /// What the first of the fields says of a refusal.
    fn of(number: u32) -> Self {
        match number {
            1 => Which::First,
            _ => Which::Second,
        }
    }
}

/// Why two disks were not compared.
#[derive(Clone, Copy, Debug, PartialEq, Eq)]
pub struct Refused {
    pub disk: Which,
    pub error: Error,
}

/// How many differences are asked for at a time.
const ROOM: usize = 4_096;

impl<L: Library + Comparer> Disk<L> {
    /// How another disk differs from this one: first the entries of this one that the other has not or has otherwise, in the
    /// order of the walk, then those that only the other has. There is none exactly if both hold the same tree with the same
    /// fields and bytes.
    ///
    /// ```
    /// use ovenknit_host::calls::ROOT;
    /// use ovenknit_host::differences::{Bytes, Difference, SIZE};
    /// use ovenknit_host::disk::{Disk, Error, Format, New};
    /// use ovenknit_host::model::Model;
    ///
    /// # fn main() -> Result<(), Error> {
    /// let mut disk = Disk::<Model>::format(1_760, &Format::new(63, 2, b"bench 4"))?;
    /// disk.root().store(&New::file(b"pack7"), b"180 C")?;
    /// let mut other = Disk::<Model>::new(disk.image().to_vec());
    /// assert_eq!(disk.differences(&mut other), Ok(vec![]));
    ///
    /// other.resize(ROOT, b"PACK7", 7)?;
    /// other.write(ROOT, b"PACK7", 1, b"9")?;
    /// // The root directory is in block 5, and its first entry begins at byte 16 of it.
    /// let place = 5 * 512 + 16;
    /// let bytes = Some(Bytes { first: 1, many: 3 });
    /// let found = Difference::Both { first: place, second: place, fields: SIZE, bytes };
    /// assert_eq!(disk.differences(&mut other), Ok(vec![found]));
    /// # Ok(())
    /// # }
    /// ```
    pub fn differences(&mut self, other: &mut Disk<L>) -> Result<Vec<Difference>, Refused> {
        self.differences_in_turns(other, ROOM)
    }

    /// The same, with so many asked for at a time.
    fn differences_in_turns(&mut self, other: &mut Disk<L>, room: usize) -> Result<Vec<Difference>, Refused> {
        let mut all = Vec::new();
        let mut out = vec![0; room * NUMBERS];
        loop {
            let mut fields = [0; 2];
            let answer = L::differences(self.lent(), other.lent(), all.len() as u64, &mut out, &mut fields);
            let [refused, many] = fields;
            Error::of(answer).map_err(|error| Refused { disk: Which::of(refused), error })?;
            let (numbers, _) = out[..many as usize * NUMBERS].as_chunks();
            all.extend(numbers.iter().copied().map(Difference::of));
            if many as usize != room {
                return Ok(all);
            }
        }
    }
}

#[cfg(test)]
mod tests {
    use super::*;
    use crate::calls::{BLOCK, ROOT};
    use crate::disk::{Format, New};
    use crate::model::Model;

    fn disk(names: &[&[u8]]) -> Disk<Model> {
        let mut disk = Disk::format(40, &Format::new(20, 1, b"disk")).expect("it is formatted");
        for name in names {
            disk.make(ROOT, &New::file(name)).expect("it is made");
        }
        disk
    }

    #[test]
    fn numbers_are_told_apart() {
        assert_eq!(Difference::of([1, 2_064, 0, 0, 0, 0]), Difference::OnlyFirst { place: 2_064 });
        assert_eq!(Difference::of([2, 0, 2_064, 0, 0, 0]), Difference::OnlySecond { place: 2_064 });
        let both = |fields, bytes| Difference::Both { first: 2_064, second: 2_082, fields, bytes };
        assert_eq!(Difference::of([3, 2_064, 2_082, 33, 0, 0]), both(TYPE | SIZE, None));
        let bytes = Some(Bytes { first: 0, many: 2 });
        assert_eq!(Difference::of([3, 2_064, 2_082, 0, 0, 2]), both(0, bytes));
    }

    /// However many are asked for at a time, all come, and none twice.
    #[test]
    fn turns_of_any_length() {
        let (mut one, mut other) = (disk(&[b"a", b"b", b"c", b"d"]), disk(&[b"b", b"e"]));
        let place = |number: u32| 4 * BLOCK as u32 + 16 + 18 * number;
        let first = [0, 2, 3].map(|number| Difference::OnlyFirst { place: place(number) });
        let expected = [&first[..], &[Difference::OnlySecond { place: place(1) }]].concat();
        for room in 1..7 {
            assert_eq!(one.differences_in_turns(&mut other, room).as_ref(), Ok(&expected), "{room}");
        }
    }

    #[test]
    fn the_refused_disk_is_named() {
        let (mut sound, mut none) = (disk(&[]), Disk::new(vec![0; 20 * BLOCK]));
        let refused = |disk| Err(Refused { disk, error: Error::DiskType });
        assert_eq!(sound.differences(&mut none), refused(Which::Second));
        assert_eq!(none.differences(&mut sound), refused(Which::First));
        let mut short = Disk::new(vec![0; 7]);
        assert_eq!(none.differences(&mut short), refused(Which::First));
    }
}
