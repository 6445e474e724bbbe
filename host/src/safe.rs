//! Safe updates: changes as lists of block writes. Written one after the other to the place where the disk is kept, they leave
//! the old tree until the last one, the root's, and the new tree from then on, wherever they are cut off.

use crate::calls::{Call, Library, BLOCK, BLOCK_WRITE};
use crate::disk::{Disk, Error, New};

/// The most blocks of a list that are no file's and no directory's: one for each anode block, and the root.
const MOST_OTHERS: usize = 42 + 1;

/// A block, and what is to be written there.
#[derive(Clone, Copy, Debug, PartialEq, Eq)]
pub struct BlockWrite<'a> {
    pub block: u16,
    pub bytes: &'a [u8; BLOCK],
}

impl BlockWrite<'_> {
    /// Where the block begins on the disk, in bytes.
    pub fn offset(&self) -> u64 {
        u64::from(self.block) * BLOCK as u64
    }
}

/// The block writes of one change, in their order. The last one is the root's, and all takes effect with it.
#[derive(Clone, Debug, PartialEq, Eq)]
pub struct Writes {
    list: Vec<u8>,
}

impl Writes {
    /// The first so many of the block writes in a buffer.
    pub(crate) fn of(mut list: Vec<u8>, count: u32) -> Self {
        list.truncate(count as usize * BLOCK_WRITE);
        Writes { list }
    }

    /// How many there are; never 0 of a change that was done.
    pub fn len(&self) -> usize {
        self.list.len() / BLOCK_WRITE
    }

    pub fn is_empty(&self) -> bool {
        self.list.is_empty()
    }

    pub fn iter(&self) -> impl ExactSizeIterator<Item = BlockWrite<'_>> + DoubleEndedIterator {
        let (writes, _) = self.list.as_chunks::<BLOCK_WRITE>();
        writes
            .iter()
            .map(|[high, low, bytes @ ..]| BlockWrite { block: u16::from_be_bytes([*high, *low]), bytes })
    }

    /// Those before the root's, and the root's.
    pub fn parts(&self) -> (impl Iterator<Item = BlockWrite<'_>>, Option<BlockWrite<'_>>) {
        let mut others = self.iter();
        let root = others.next_back();
        (others, root)
    }

    /// Writes the first so many of them to an image.
    pub fn apply(&self, count: usize, image: &mut [u8]) {
        for write in self.iter().take(count) {
            image[write.offset() as usize..][..BLOCK].copy_from_slice(write.bytes);
        }
    }
}

/// Each leaves the disk in memory as it is after all of its writes. 27 if fewer blocks are free than the change needs at the
/// same time; 28 if it needs an anode and none is free, since no safe change makes the anode table grow.
///
/// ```
/// use ovenknit_host::calls::ROOT;
/// use ovenknit_host::disk::{Disk, Error, Format, New};
/// use ovenknit_host::model::Model;
///
/// # fn main() -> Result<(), Error> {
/// let mut disk = Disk::<Model>::format(1_760, &Format::new(63, 2, b"bench 4"))?;
/// disk.root().store(&New::file(b"pack7"), b"180 C")?;
/// let old = disk.image().to_vec();
///
/// // The file's block, two anode blocks, and the root.
/// let writes = disk.safe_write(ROOT, b"pack7", 0, b"175 C")?;
/// let blocks: Vec<u16> = writes.iter().map(|write| write.block).collect();
/// assert_eq!(blocks, [65, 6, 7, 2]);
///
/// // Cut off before the root's, the disk holds what it held; after it, what it is to hold.
/// for (count, bytes) in [(0, b"180 C"), (3, b"180 C"), (4, b"175 C")] {
///     let mut cut = old.clone();
///     writes.apply(count, &mut cut);
///     assert_eq!(Disk::<Model>::new(cut).root().read(b"pack7")?, bytes);
/// }
/// # Ok(())
/// # }
/// ```
impl<L: Library> Disk<L> {
    /// Makes an empty file or directory.
    pub fn safe_make(&mut self, directory: u16, new: &New) -> Result<Writes, Error> {
        let (kind, room) = (new.kind.type_byte(), self.room(2));
        let (name, comment) = (new.name.to_vec(), new.comment.to_vec());
        let New { stamp, protection, .. } = *new;
        self.safely(&Call::SafeMake { directory, kind, name, comment, stamp, protection, room })
    }

    /// Gives a file another size. Bytes that come new are 0.
    pub fn safe_resize(&mut self, directory: u16, name: &[u8], size: u64) -> Result<Writes, Error> {
        let room = self.room(size.div_ceil(BLOCK as u64).saturating_add(1));
        self.safely(&Call::SafeResize { directory, name: name.to_vec(), size, room })
    }

    /// Replaces bytes of a file within its size.
    pub fn safe_write(
        &mut self,
        directory: u16,
        name: &[u8],
        offset: u64,
        data: &[u8],
    ) -> Result<Writes, Error> {
        let (name, data, room) = (name.to_vec(), data.to_vec(), self.room(u64::MAX));
        self.safely(&Call::SafeWrite { directory, name, offset, data, room })
    }

    /// Removes a file or an empty directory.
    pub fn safe_remove(&mut self, directory: u16, name: &[u8]) -> Result<Writes, Error> {
        let room = self.room(1);
        self.safely(&Call::SafeRemove { directory, name: name.to_vec(), room })
    }

    fn safely(&mut self, call: &Call) -> Result<Writes, Error> {
        self.call(call).map(|output| Writes::of(output.writes, output.count[0]))
    }

    /// The bytes for a list with so many blocks of files and directories, whatever the disk: no list has as many blocks as
    /// the disk, since it takes only free ones, and the root.
    fn room(&self, blocks: u64) -> usize {
        let disk = self.image().len() / BLOCK;
        let most = usize::try_from(blocks).unwrap_or(disk).saturating_add(MOST_OTHERS);
        most.min(disk) * BLOCK_WRITE
    }
}

#[cfg(test)]
mod tests {
    use super::*;
    use crate::calls::ROOT;
    use crate::disk::Format;
    use crate::model::Model;

    /// A disk of 60 blocks with one anode block, on which a directory and a file of 20 blocks are.
    fn disk() -> Disk<Model> {
        let mut disk = Disk::format(60, &Format::new(20, 1, b"disk")).expect("it is formatted");
        disk.make(ROOT, &New::directory(b"d")).expect("it is made");
        disk.root().store(&New::file(b"f"), &[7; 20 * BLOCK]).expect("there is room");
        disk
    }

    type Change = fn(&mut Disk<Model>) -> Result<Writes, Error>;

    #[test]
    fn every_list_ends_with_the_root() {
        let changes: [Change; 6] = [
            |disk| disk.safe_make(ROOT, &New::file(b"g")),
            |disk| disk.safe_make(ROOT, &New::directory(b"g")),
            |disk| disk.safe_resize(ROOT, b"f", 700),
            |disk| disk.safe_write(ROOT, b"f", 1_000, &[8; 5_000]),
            |disk| disk.safe_remove(ROOT, b"f"),
            |disk| disk.safe_remove(ROOT, b"d"),
        ];
        for (change, count) in changes.into_iter().zip([3, 4, 5, 22, 3, 3]) {
            let mut disk = disk();
            let mut image = disk.image().to_vec();
            let writes = change(&mut disk).expect("there is room");
            let (others, root) = writes.parts();
            assert_eq!((writes.len(), writes.iter().len(), others.count()), (count, count, count - 1));
            assert_eq!(root.map(|root| (root.block, root.offset())), Some((2, 1_024)));
            assert!(!writes.is_empty() && writes.iter().rev().skip(1).all(|write| write.block > 2));
            writes.apply(usize::MAX, &mut image);
            assert_eq!(image, disk.image());
        }
    }

    /// The list that needs the most: all free blocks of the disk, and the root.
    #[test]
    fn the_buffer_is_never_too_short() {
        let mut disk = disk();
        disk.check().expect("it is sound");
        // 33 are free: two go to the directory block and the anode block.
        let writes = disk.safe_resize(ROOT, b"f", 31 * 512).expect("there is room");
        assert_eq!(writes.len(), 34);
        let before = disk.image().to_vec();
        for size in [32 * 512, 65_536 * 512, u64::MAX] {
            assert_eq!(disk.safe_resize(ROOT, b"f", size), Err(Error::NoFreeBlock), "{size}");
        }
        assert_eq!(disk.safe_write(ROOT, b"f", 0, &[9]), Err(Error::NoFreeBlock));
        assert_eq!(disk.safe_remove(ROOT, b"g"), Err(Error::NotFound));
        assert_eq!(disk.image(), before);
    }

    #[test]
    fn the_room_is_that_of_the_disk_at_most() {
        let disk = disk();
        assert_eq!([1, 2, 17, 18, u64::MAX].map(|blocks| disk.room(blocks) / 514), [44, 45, 60, 60, 60]);
        assert_eq!(Disk::<Model>::new(Vec::new()).room(5), 0);
    }
}
