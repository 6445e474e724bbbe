//! A disk with its tables, behind safe methods.

use std::marker::PhantomData;

use crate::bitmap;
use crate::calls::{run, tables, Call, Lent, Library, Output, Stamp, BLOCK, DIRECTORY, FILE, ROOT};
pub use crate::refusals::Error;
use crate::report::{Figures, Report};

/// A disk image and the two tables that the calls fill, over any [`Library`].
///
/// Every call but format checks the whole image first, and a refused one leaves the image as it was. The stack that the
/// calls of the proved library need is in [`crate::stack`].
///
/// The example runs on the model; with the feature `proved`, `Disk<ffi::Proved>` is the same over the proved
/// library.
///
/// ```
/// use ovenknit_host::calls::{Stamp, ROOT};
/// use ovenknit_host::disk::{Disk, Entry, Error, Format, Kind, New};
/// use ovenknit_host::model::Model;
///
/// # fn main() -> Result<(), Error> {
/// let mut disk = Disk::<Model>::format(1_760, &Format::new(63, 2, b"bench 4"))?;
/// disk.make(ROOT, &New { stamp: Stamp::new(17_000, 600, 0), ..New::directory(b"recipes") })?;
///
/// let recipes = disk.find(ROOT, b"recipes")?.anode;
/// disk.make(recipes, &New::file(b"pack7"))?;
/// disk.resize(recipes, b"pack7", 6)?;
/// disk.write(recipes, b"pack7", 0, b"180 C\n")?;
///
/// assert_eq!(disk.read(recipes, b"pack7", 0, 6)?, b"180 C\n");
/// let entries: Vec<Entry> = disk.list(recipes).collect::<Result<_, _>>()?;
/// assert_eq!((entries[0].name.as_slice(), entries[0].kind, entries[0].size), (&b"pack7"[..], Kind::File, 6));
///
/// let full = disk.resize(recipes, b"pack7", 1 << 20).unwrap_err();
/// assert_eq!(full, Error::NoFreeBlock);
/// let summary = disk.summary()?;
/// assert_eq!((summary.blocks, summary.free, summary.files, summary.directories), (1_760, 1_752, 1, 2));
/// # Ok(())
/// # }
/// ```
pub struct Disk<L: Library> {
    image: Vec<u8>,
    blocks: Vec<u16>,
    anodes: Vec<u16>,
    library: PhantomData<L>,
}

/// What a new disk is made with.
#[derive(Clone, Debug)]
pub struct Format<'a> {
    /// The last block of the part where directories are put first.
    pub last_reserved: u16,
    /// How many blocks hold anodes at first, 1 to 42; each holds 82, and more come as they are needed.
    pub anode_blocks: u16,
    /// The disk's name, 1 to 31 bytes.
    pub name: &'a [u8],
    pub stamp: Stamp,
    pub protection: u16,
}

impl<'a> Format<'a> {
    /// With no date and no protection.
    pub fn new(last_reserved: u16, anode_blocks: u16, name: &'a [u8]) -> Self {
        Format { last_reserved, anode_blocks, name, stamp: Stamp::default(), protection: 0 }
    }
}

/// What an entry is.
#[derive(Clone, Copy, Debug, PartialEq, Eq)]
pub enum Kind {
    File,
    Directory,
}

impl Kind {
    /// The kind that an entry's type byte says.
    pub fn of(type_byte: u8) -> Self {
        match type_byte {
            DIRECTORY => Kind::Directory,
            _ => Kind::File,
        }
    }

    /// The type byte of an entry of this kind.
    pub fn type_byte(self) -> u8 {
        match self {
            Kind::File => FILE,
            Kind::Directory => DIRECTORY,
        }
    }
}

/// A new entry.
#[derive(Clone, Debug)]
pub struct New<'a> {
    pub kind: Kind,
    /// 1 to 107 bytes without 0, `:` and `/`.
    pub name: &'a [u8],
    /// Up to 79 bytes.
    pub comment: &'a [u8],
    pub stamp: Stamp,
    pub protection: u8,
}

impl<'a> New<'a> {
    fn of(kind: Kind, name: &'a [u8]) -> Self {
        New { kind, name, comment: b"", stamp: Stamp::default(), protection: 0 }
    }

    /// A file with no comment, date and protection.
    pub fn file(name: &'a [u8]) -> Self {
        New::of(Kind::File, name)
    }

    /// A directory with no comment, date and protection.
    pub fn directory(name: &'a [u8]) -> Self {
        New::of(Kind::Directory, name)
    }
}

/// What summary counts.
#[derive(Clone, Copy, Debug, PartialEq, Eq)]
pub struct Summary {
    pub blocks: u32,
    pub free: u32,
    pub files: u32,
    /// With the root.
    pub directories: u32,
}

/// What a disk says of itself.
#[derive(Clone, Debug, PartialEq, Eq)]
pub struct Label {
    /// The last block of the part where directories are put first.
    pub last_reserved: u16,
    pub stamp: Stamp,
    pub protection: u16,
    /// 1 to 31 bytes of any value.
    pub name: Vec<u8>,
}

/// Who owns a block.
#[derive(Clone, Copy, Debug, PartialEq, Eq)]
pub enum Owner {
    /// Blocks 0 to 2.
    Start,
    AnodeBlock,
    Free,
    ToBeFreed,
    Bad,
    /// The file or directory whose entry has this anode; 5 is the root.
    Entry(u16),
}

impl Owner {
    /// What a number in the block table means.
    fn of(number: u16) -> Self {
        match number {
            65_535 => Owner::Start,
            65_534 => Owner::AnodeBlock,
            1 => Owner::Free,
            3 => Owner::ToBeFreed,
            4 => Owner::Bad,
            head => Owner::Entry(head),
        }
    }
}

/// The bytes of an entry before its name.
const BEFORE_NAME: u32 = 16;

/// An entry of a directory.
#[derive(Clone, Debug, PartialEq, Eq)]
pub struct Entry {
    pub kind: Kind,
    /// The head of its chain; for a directory, the number by which calls know it.
    pub anode: u16,
    /// The size of a file; in a directory's entry any number may stand here.
    pub size: u32,
    pub stamp: Stamp,
    pub protection: u8,
    pub name: Vec<u8>,
    pub comment: Vec<u8>,
}

impl Entry {
    fn of(image: &[u8], fields: &[u32; 11]) -> Self {
        let part = |at: u32, length: u32| image[at as usize..][..length as usize].to_vec();
        let [kind, anode, size, day, minute, tick, protection, name, name_length, comment, comment_length] =
            *fields;
        Entry {
            kind: Kind::of(kind as u8),
            anode: anode as u16,
            size,
            stamp: Stamp::new(day as u16, minute as u16, tick as u16),
            protection: protection as u8,
            name: part(name, name_length),
            comment: part(comment, comment_length),
        }
    }
}

impl<L: Library> Disk<L> {
    /// Takes an image as it is; the first call checks it.
    pub fn new(image: Vec<u8>) -> Self {
        let (blocks, anodes) = tables(&image);
        Disk { image, blocks, anodes, library: PhantomData }
    }

    /// Makes an empty disk of so many blocks.
    pub fn format(blocks: usize, format: &Format) -> Result<Self, Error> {
        let mut disk = Disk::new(vec![0; blocks * BLOCK]);
        let Format { last_reserved, anode_blocks, stamp, protection, .. } = *format;
        let name = format.name.to_vec();
        disk.call(&Call::Format { last_reserved, anode_blocks, name, stamp, protection })?;
        Ok(disk)
    }

    /// Runs a call, and gives what it handed back.
    pub(crate) fn call(&mut self, call: &Call) -> Result<Output, Error> {
        let outcome = run::<L>(call, &mut self.image, &mut self.blocks, &mut self.anodes);
        Error::of(outcome.answer).map(|()| outcome.output)
    }

    /// The image and both tables, for a call that is lent more than one disk.
    pub(crate) fn lent(&mut self) -> Lent<'_> {
        Lent { image: &mut self.image, blocks: &mut self.blocks, anodes: &mut self.anodes }
    }

    /// Free space as the hard disk edition's bitmap.
    pub fn bitmap(&mut self) -> Result<Vec<u8>, Error> {
        let length = bitmap::length(self.image.len() / BLOCK, self.label()?.last_reserved);
        Ok(self.call(&Call::Bitmap { length })?.bytes)
    }

    /// The first byte of a bitmap that is not as the disk's own.
    pub fn bitmap_difference(&mut self, bitmap: &[u8]) -> Result<Option<usize>, Error> {
        let [differs, place] = self.call(&Call::BitmapDiffers { bitmap: bitmap.to_vec() })?.difference;
        Ok((differs == 1).then_some(place as usize))
    }

    /// Feeds the disk to a report. A disk that the check refuses is counted there under its number, and nowhere else; 31 means
    /// that the report takes no further disk, and has not changed.
    pub fn report(&mut self, report: &mut Report) -> Result<Figures, Error> {
        let call = Call::Report { totals: report.totals };
        let outcome = run::<L>(&call, &mut self.image, &mut self.blocks, &mut self.anodes);
        report.totals = outcome.output.totals;
        Error::of(outcome.answer).map(|()| Figures::of(outcome.output.disk))
    }

    /// Is the image a disk without damage?
    pub fn check(&mut self) -> Result<(), Error> {
        self.call(&Call::Check).map(drop)
    }

    /// How large and how full the disk is.
    pub fn summary(&mut self) -> Result<Summary, Error> {
        let [blocks, free, files, directories] = self.call(&Call::Summary)?.counts;
        Ok(Summary { blocks, free, files, directories })
    }

    /// The entries of a directory, in their order. The iterator ends after the last entry, or after an error.
    pub fn list(&mut self, directory: u16) -> List<'_, L> {
        List { disk: self, directory, place: 0, ended: false }
    }

    /// The entry at a place of a directory, from 0.
    pub fn entry(&mut self, directory: u16, place: u64) -> Result<Entry, Error> {
        self.placed_entry(directory, place).map(|placed| placed.1)
    }

    /// The same, behind the byte of the image where the entry begins.
    pub fn placed_entry(&mut self, directory: u16, place: u64) -> Result<(u32, Entry), Error> {
        let fields = self.call(&Call::List { directory, place })?.entry;
        Ok((fields[7] - BEFORE_NAME, Entry::of(&self.image, &fields)))
    }

    /// The entry of that name, where the capitals A to Z are the same as small letters.
    pub fn find(&mut self, directory: u16, name: &[u8]) -> Result<Entry, Error> {
        let output = self.call(&Call::Find { directory, name: name.to_vec() })?;
        Ok(Entry::of(&self.image, &output.entry))
    }

    /// What the disk says of itself.
    pub fn label(&mut self) -> Result<Label, Error> {
        let [last_reserved, day, minute, tick, protection, at, length] = self.call(&Call::Label)?.label;
        Ok(Label {
            last_reserved: last_reserved as u16,
            stamp: Stamp::new(day as u16, minute as u16, tick as u16),
            protection: protection as u16,
            name: self.image[at as usize..][..length as usize].to_vec(),
        })
    }

    /// Bytes of a file.
    pub fn read(
        &mut self,
        directory: u16,
        name: &[u8],
        offset: u64,
        length: usize,
    ) -> Result<Vec<u8>, Error> {
        // No file is as long as the image, so a longer length is refused alike, and no buffer is needed for it.
        let length = length.min(self.image.len());
        let call = Call::Read { directory, name: name.to_vec(), offset, length };
        self.call(&call).map(|output| output.bytes)
    }

    /// All bytes of the file of an entry in a directory.
    pub fn read_file(&mut self, directory: u16, entry: &Entry) -> Result<Vec<u8>, Error> {
        self.read(directory, &entry.name, 0, entry.size as usize)
    }

    /// Makes an empty file or directory.
    pub fn make(&mut self, directory: u16, new: &New) -> Result<(), Error> {
        let kind = new.kind.type_byte();
        let (name, comment) = (new.name.to_vec(), new.comment.to_vec());
        let New { stamp, protection, .. } = *new;
        self.call(&Call::Make { directory, kind, name, comment, stamp, protection }).map(drop)
    }

    /// Gives a file another size. Bytes that come new are 0.
    pub fn resize(&mut self, directory: u16, name: &[u8], size: u64) -> Result<(), Error> {
        self.call(&Call::Resize { directory, name: name.to_vec(), size }).map(drop)
    }

    /// Replaces bytes of a file within its size.
    pub fn write(&mut self, directory: u16, name: &[u8], offset: u64, data: &[u8]) -> Result<(), Error> {
        let call = Call::Write { directory, name: name.to_vec(), offset, data: data.to_vec() };
        self.call(&call).map(drop)
    }

    /// Removes a file or an empty directory.
    pub fn remove(&mut self, directory: u16, name: &[u8]) -> Result<(), Error> {
        self.call(&Call::Remove { directory, name: name.to_vec() }).map(drop)
    }

    /// The root directory.
    pub fn root(&mut self) -> Directory<'_, L> {
        Directory { disk: self, number: ROOT }
    }

    /// The image as it is now.
    pub fn image(&self) -> &[u8] {
        &self.image
    }

    /// The image, given back.
    pub fn into_image(self) -> Vec<u8> {
        self.image
    }

    /// The owner of each block, by the block table as the last call left it. After a damage number the table says
    /// nothing.
    pub fn owners(&self) -> impl Iterator<Item = Owner> + '_ {
        self.blocks.iter().map(|&number| Owner::of(number))
    }

    /// The head of each anode's chain, as the last call left it; 0 for anode 0 and those not in use.
    pub fn heads(&self) -> &[u16] {
        &self.anodes
    }
}

/// A directory of a disk. What it is called here needs no number:
///
/// ```
/// use ovenknit_host::disk::{Disk, Error, Format, New};
/// use ovenknit_host::model::Model;
///
/// # fn main() -> Result<(), Error> {
/// let mut disk = Disk::<Model>::format(1_760, &Format::new(63, 2, b"bench 4"))?;
/// disk.root().make(&New::directory(b"recipes"))?;
/// let mut root = disk.root();
/// let mut recipes = root.directory(b"recipes")?;
/// recipes.store(&New::file(b"pack7"), b"180 C, 25 min\n")?;
/// assert_eq!(recipes.read(b"pack7")?, b"180 C, 25 min\n");
/// assert_eq!(recipes.directory(b"pack7").err(), Some(Error::NoDirectory));
/// assert_eq!(disk.label()?.name, b"bench 4");
/// assert_eq!(disk.into_image().len(), 1_760 * 512);
/// # Ok(())
/// # }
/// ```
pub struct Directory<'a, L: Library> {
    disk: &'a mut Disk<L>,
    number: u16,
}

impl<L: Library> Directory<'_, L> {
    /// The number by which calls know it.
    pub fn number(&self) -> u16 {
        self.number
    }

    /// A directory in it.
    pub fn directory(&mut self, name: &[u8]) -> Result<Directory<'_, L>, Error> {
        let entry = self.find(name)?;
        match entry.kind {
            Kind::Directory => Ok(Directory { disk: self.disk, number: entry.anode }),
            Kind::File => Err(Error::NoDirectory),
        }
    }

    /// Its entries, in their order.
    pub fn list(&mut self) -> List<'_, L> {
        self.disk.list(self.number)
    }

    /// The entry of that name.
    pub fn find(&mut self, name: &[u8]) -> Result<Entry, Error> {
        self.disk.find(self.number, name)
    }

    /// All bytes of a file.
    pub fn read(&mut self, name: &[u8]) -> Result<Vec<u8>, Error> {
        let entry = self.find(name)?;
        self.disk.read_file(self.number, &entry)
    }

    /// Makes an empty file or directory.
    pub fn make(&mut self, new: &New) -> Result<(), Error> {
        self.disk.make(self.number, new)
    }

    /// Makes a file with these bytes. If there is no room for them, an empty file or none is left.
    pub fn store(&mut self, new: &New, bytes: &[u8]) -> Result<(), Error> {
        self.make(&New { kind: Kind::File, ..new.clone() })?;
        self.disk.resize(self.number, new.name, bytes.len() as u64)?;
        self.disk.write(self.number, new.name, 0, bytes)
    }

    /// Removes a file or an empty directory.
    pub fn remove(&mut self, name: &[u8]) -> Result<(), Error> {
        self.disk.remove(self.number, name)
    }
}

/// The entries of a directory; see [`Disk::list`].
pub struct List<'a, L: Library> {
    disk: &'a mut Disk<L>,
    directory: u16,
    place: u64,
    ended: bool,
}

impl<L: Library> Iterator for List<'_, L> {
    type Item = Result<Entry, Error>;

    fn next(&mut self) -> Option<Self::Item> {
        if self.ended {
            return None;
        }
        let entry = self.disk.entry(self.directory, self.place);
        self.place += 1;
        self.ended = entry.is_err();
        match entry {
            Err(Error::NotFound) => None,
            other => Some(other),
        }
    }
}

#[cfg(test)]
mod tests {
    use super::*;
    use crate::model::Model;

    fn disk() -> Disk<Model> {
        let mut disk = Disk::format(20, &Format::new(9, 1, b"disk")).expect("it is formatted");
        for name in [&b"one"[..], b"two", b"three"] {
            disk.make(ROOT, &New::file(name)).expect("it is made");
        }
        disk
    }

    #[test]
    fn a_list_ends_after_the_last_entry_or_an_error() {
        let mut disk = disk();
        let names: Vec<Vec<u8>> = disk.list(ROOT).map(|entry| entry.expect("it is there").name).collect();
        assert_eq!(names, [&b"one"[..], b"two", b"three"]);
        let numbers = |list: List<Model>| list.map(|entry| entry.map_err(Error::number)).collect::<Vec<_>>();
        assert_eq!(numbers(disk.list(6)), [Err(21)]);
        let mut damaged = Disk::<Model>::new(vec![0; 20 * BLOCK]);
        assert_eq!(numbers(damaged.list(ROOT)), [Err(3)]);
    }

    #[test]
    fn every_length_can_be_asked_for() {
        let mut disk = disk();
        disk.resize(ROOT, b"two", 700).expect("there is room");
        disk.write(ROOT, b"two", 510, b"abcd").expect("it is within the size");
        assert_eq!(disk.read(ROOT, b"two", 509, 6).as_deref(), Ok(&b"\0abcd\0"[..]));
        for (offset, length) in [(0, 701), (1, 700), (0, usize::MAX), (u64::MAX, usize::MAX)] {
            assert_eq!(disk.read(ROOT, b"two", offset, length).map_err(Error::number), Err(26));
        }
        assert_eq!(disk.read(ROOT, b"four", 0, usize::MAX).map_err(Error::number), Err(22));
    }

    #[test]
    fn a_refused_change_leaves_the_image() {
        let mut disk = disk();
        let before = disk.image().to_vec();
        assert_eq!(disk.resize(ROOT, b"one", 1 << 40).map_err(Error::number), Err(27));
        assert_eq!(disk.make(ROOT, &New::directory(b"one")).map_err(Error::number), Err(23));
        assert_eq!(disk.remove(ROOT, b"four").map_err(Error::number), Err(22));
        let start = [Owner::Start; 3].into_iter();
        let known = start.chain([Owner::AnodeBlock, Owner::Entry(ROOT), Owner::Free]);
        assert!(disk.owners().take(6).eq(known));
        assert_eq!(disk.heads()[..8], [0, 1, 1, 0, 0, 5, 1, 7]);
        assert_eq!(disk.image(), before);
    }
}
