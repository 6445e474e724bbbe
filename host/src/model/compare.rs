//! How two disks differ, by the words of the paper: the entries of each in the order of its walk, under their paths with folded
//! names; then what two entries of one path have in common.

use std::collections::{HashMap, VecDeque};

use super::check::{survey, Survey};
use super::layout::*;
use super::Model;
use crate::calls::Lent;
use crate::differences::Comparer;

// The kinds of differences.
const ONLY_FIRST: u32 = 1;
const ONLY_SECOND: u32 = 2;
const BOTH: u32 = 3;

// The fields that can differ.
const TYPE: u32 = 1;
const NAME: u32 = 2;
const COMMENT: u32 = 4;
const STAMPS: u32 = 8;
const PROTECTION: u32 = 16;
const SIZE: u32 = 32;

/// The numbers of a difference: its kind, the entry's byte place in each image, the fields that differ, the first byte that
/// differs, and how many do.
type Numbers = [u32; 6];

/// The folded names from the root on.
type Path = Vec<Vec<u8>>;

/// An entry and where it stands.
struct Found<'a> {
    path: Path,
    /// The byte of the image where it begins.
    place: u32,
    entry: Entry<'a>,
}

/// A disk that the check accepts.
struct Side<'a> {
    image: &'a [u8],
    survey: Survey,
}

impl<'a> Side<'a> {
    /// Checks an image, which fills its tables.
    fn of(lent: Lent<'a>) -> Result<Self, u32> {
        let Lent { image, blocks, anodes } = lent;
        let survey = survey(image, blocks, anodes)?;
        Ok(Side { image, survey })
    }

    /// All entries: directories breadth first from the root, blocks in chain order, entries in byte order.
    fn walk(&self) -> Vec<Found<'a>> {
        let mut all = Vec::new();
        let mut waiting = VecDeque::from([(ROOT_DIRECTORY, Path::new())]);
        while let Some((directory, path)) = waiting.pop_front() {
            for number in self.survey.table.chain_blocks(directory) {
                for entry in Entries::of(block(self.image, number)).flatten() {
                    let mut path = path.clone();
                    path.push(folded(entry.name));
                    if entry.kind == DIRECTORY {
                        waiting.push_back((entry.anode, path.clone()));
                    }
                    let place = (usize::from(number) * BLOCK + entry.at) as u32;
                    all.push(Found { path, place, entry });
                }
            }
        }
        all
    }

    /// The bytes of a file up to its size.
    fn bytes(&self, file: &Entry) -> Vec<u8> {
        let blocks = self.survey.table.chain_blocks(file.anode).map(|number| block(self.image, number));
        let mut bytes = blocks.collect::<Vec<_>>().concat();
        bytes.truncate(file.size as usize);
        bytes
    }
}

/// The fields in which two entries differ, added up. Sizes count only where both are files.
fn fields_differing(one: &Entry, other: &Entry) -> u32 {
    let both_files = one.kind == FILE && other.kind == FILE;
    let stamps = |entry: &Entry| (entry.day, entry.minute, entry.tick);
    let differing = [
        (TYPE, one.kind != other.kind),
        (NAME, one.name != other.name),
        (COMMENT, one.comment != other.comment),
        (STAMPS, stamps(one) != stamps(other)),
        (PROTECTION, one.protection != other.protection),
        (SIZE, both_files && one.size != other.size),
    ];
    differing.iter().filter(|(_, differs)| *differs).map(|(field, _)| field).sum()
}

/// The first byte that differs and how many do, where those past the shorter one's end all differ; zeros if none does.
fn bytes_differing(one: &[u8], other: &[u8]) -> [u32; 2] {
    let shorter = one.len().min(other.len());
    let past_the_end = one.len().max(other.len()) - shorter;
    let differing = || (0..shorter).filter(|&place| one[place] != other[place]);
    match differing().count() + past_the_end {
        0 => [0, 0],
        many => [differing().next().unwrap_or(shorter) as u32, many as u32],
    }
}

/// The difference of two entries of one path, if there is any.
fn difference(first: &Side, one: &Found, second: &Side, other: &Found) -> Option<Numbers> {
    let fields = fields_differing(&one.entry, &other.entry);
    let [byte, many] = match (one.entry.kind, other.entry.kind) {
        (FILE, FILE) => bytes_differing(&first.bytes(&one.entry), &second.bytes(&other.entry)),
        _ => [0, 0],
    };
    (fields != 0 || many != 0).then_some([BOTH, one.place, other.place, fields, byte, many])
}

/// All differences: those of the first's entries in its walk order, then those only in the second in its own.
fn differences(first: &Side, second: &Side) -> Vec<Numbers> {
    let (ones, others) = (first.walk(), second.walk());
    let by_path = |all: &[Found]| -> HashMap<Path, usize> {
        all.iter().enumerate().map(|(number, found)| (found.path.clone(), number)).collect()
    };
    let (in_first, in_second) = (by_path(&ones), by_path(&others));
    let of_first = ones.iter().filter_map(|one| match in_second.get(&one.path) {
        Some(&number) => difference(first, one, second, &others[number]),
        None => Some([ONLY_FIRST, one.place, 0, 0, 0, 0]),
    });
    let only_second = others.iter().filter(|other| !in_first.contains_key(&other.path));
    of_first.chain(only_second.map(|other| [ONLY_SECOND, 0, other.place, 0, 0, 0])).collect()
}

/// The differences of two images, or which of them is refused and by which number. The second is not even looked at where the
/// first is refused.
fn compared(first: Lent, second: Lent) -> Result<Vec<Numbers>, (u32, u32)> {
    let first = Side::of(first).map_err(|number| (1, number))?;
    let second = Side::of(second).map_err(|number| (2, number))?;
    Ok(differences(&first, &second))
}

/// The differences from a place on.
fn from(all: &[Numbers], place: u64) -> &[Numbers] {
    usize::try_from(place).ok().and_then(|place| all.get(place..)).unwrap_or_default()
}

impl Comparer for Model {
    fn compare(first: Lent, second: Lent, place: u64, fields: &mut [u32; 7]) -> u32 {
        *fields = [0; 7];
        let all = match compared(first, second) {
            Ok(all) => all,
            Err((refused, number)) => {
                fields[0] = refused;
                return number;
            }
        };
        let Some(difference) = from(&all, place).first() else {
            return 22;
        };
        fields[1..].copy_from_slice(difference);
        0
    }

    fn differences(first: Lent, second: Lent, place: u64, out: &mut [u32], fields: &mut [u32; 2]) -> u32 {
        *fields = [0; 2];
        let all = match compared(first, second) {
            Ok(all) => all,
            Err((refused, number)) => {
                fields[0] = refused;
                return number;
            }
        };
        for (numbers, difference) in out.chunks_exact_mut(6).zip(from(&all, place)) {
            numbers.copy_from_slice(difference);
            fields[1] += 1;
        }
        0
    }
}
