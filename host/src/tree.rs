//! What a disk should hold, as a plain tree in memory. It knows names and bytes but nothing of blocks and anodes,
//! except that a directory's entries are packed into blocks of 494 bytes. From it follow the refusals 20 to 26,
//! what a read and a list give, and what a done change leaves. No two names of a directory look alike.

use std::collections::BTreeMap;

use crate::calls::{Call, BLOCK, DIRECTORY, FILE, ROOT, TOTALS};
use crate::disk::{Entry, Kind};
use crate::names::alike;

/// The bytes of a directory block that entries may fill.
pub const ENTRY_SPACE: usize = 494;

/// The bytes that an entry with a name and a comment of these lengths takes.
pub fn entry_length(name: usize, comment: usize) -> usize {
    (17 + name + comment).div_ceil(2) * 2
}

/// An entry, with the bytes of the file.
#[derive(Clone, Debug, PartialEq, Eq)]
pub struct Node {
    pub entry: Entry,
    pub content: Vec<u8>,
}

impl Node {
    pub fn length(&self) -> usize {
        entry_length(self.entry.name.len(), self.entry.comment.len())
    }
}

/// A directory: its entries, block by block.
#[derive(Clone, Debug, PartialEq, Eq)]
pub struct Directory {
    pub blocks: Vec<Vec<Node>>,
}

impl Directory {
    /// A new directory: one block without entries.
    fn empty() -> Self {
        Directory { blocks: vec![Vec::new()] }
    }

    pub fn nodes(&self) -> impl Iterator<Item = &Node> {
        self.blocks.iter().flatten()
    }

    pub fn find(&self, name: &[u8]) -> Option<&Node> {
        self.nodes().find(|node| alike(&node.entry.name, name))
    }

    fn find_mut(&mut self, name: &[u8]) -> Option<&mut Node> {
        self.blocks.iter_mut().flatten().find(|node| alike(&node.entry.name, name))
    }

    pub fn is_empty(&self) -> bool {
        self.nodes().next().is_none()
    }

    /// Does some block have room for an entry of this length?
    pub fn has_room(&self, length: usize) -> bool {
        self.blocks.iter().any(|block| fits(block, length))
    }

    /// Puts an entry at the end of the first block with room, else in a new block.
    fn add(&mut self, node: Node) {
        let length = node.length();
        match self.blocks.iter_mut().find(|block| fits(block, length)) {
            Some(block) => block.push(node),
            None => self.blocks.push(vec![node]),
        }
    }

    fn take(&mut self, name: &[u8]) -> Option<Node> {
        for block in &mut self.blocks {
            if let Some(place) = block.iter().position(|node| alike(&node.entry.name, name)) {
                return Some(block.remove(place));
            }
        }
        None
    }
}

/// Is there room in a block for an entry of this length?
fn fits(block: &[Node], length: usize) -> bool {
    block.iter().map(Node::length).sum::<usize>() + length <= ENTRY_SPACE
}

/// The directories of a disk by number; the root's is 5.
#[derive(Clone, Debug, PartialEq, Eq)]
pub struct Tree {
    pub directories: BTreeMap<u16, Directory>,
}

impl Default for Tree {
    /// An empty disk.
    fn default() -> Self {
        Tree { directories: BTreeMap::from([(ROOT, Directory::empty())]) }
    }
}

impl Tree {
    /// Files and directories, the root among these.
    pub fn counts(&self) -> (usize, usize) {
        let nodes = self.directories.values().flat_map(Directory::nodes);
        (nodes.filter(|node| node.entry.kind == Kind::File).count(), self.directories.len())
    }

    /// The bytes of all files.
    pub fn bytes(&self) -> usize {
        self.directories.values().flat_map(Directory::nodes).map(|node| node.content.len()).sum()
    }

    /// The blocks that files and directories take.
    pub fn blocks(&self) -> (usize, usize) {
        let nodes = self.directories.values().flat_map(Directory::nodes);
        let files = nodes.map(|node| node.content.len().div_ceil(BLOCK)).sum();
        let directories = self.directories.values().map(|directory| directory.blocks.len()).sum();
        (files, directories)
    }

    pub fn find(&self, directory: u16, name: &[u8]) -> Option<&Node> {
        self.directories.get(&directory)?.find(name)
    }

    /// The size of a file; 0 if there is none of that name.
    pub fn size(&self, directory: u16, name: &[u8]) -> usize {
        self.find(directory, name).map_or(0, |node| node.content.len())
    }

    /// The number from 20 to 26 by which a call must be refused on a disk of so many blocks that holds this tree. Any
    /// other call is done, unless space stops it, of which the tree knows nothing.
    pub fn refusal(&self, call: &Call, blocks: usize) -> Option<u32> {
        let passed = match call {
            Call::Check | Call::Summary | Call::Label | Call::Bitmap { .. } | Call::BitmapDiffers { .. } => {
                Ok(())
            }
            Call::Find { directory, name } => self.pass_name(*directory, name).map(drop),
            Call::Report { totals } => pass_report(totals),
            Call::Format { last_reserved, anode_blocks, name, .. } => {
                pass_format(blocks, usize::from(*last_reserved), usize::from(*anode_blocks), name)
            }
            Call::Read { directory, name, offset, length } => {
                self.pass_part(*directory, name, *offset, *length)
            }
            Call::Write { directory, name, offset, data }
            | Call::SafeWrite { directory, name, offset, data, .. } => {
                self.pass_part(*directory, name, *offset, data.len())
            }
            Call::List { directory, place } => self.pass_list(*directory, *place),
            Call::Make { directory, kind, name, comment, .. }
            | Call::SafeMake { directory, kind, name, comment, .. } => {
                self.pass_make(*directory, *kind, name, comment)
            }
            Call::Resize { directory, name, .. } | Call::SafeResize { directory, name, .. } => {
                self.pass_file(*directory, name).map(drop)
            }
            Call::Remove { directory, name } | Call::SafeRemove { directory, name, .. } => {
                self.pass_remove(*directory, name)
            }
        };
        passed.err()
    }

    fn pass_directory(&self, number: u16) -> Result<&Directory, u32> {
        self.directories.get(&number).ok_or(21)
    }

    fn pass_name(&self, directory: u16, name: &[u8]) -> Result<&Node, u32> {
        self.pass_directory(directory)?.find(name).ok_or(22)
    }

    fn pass_file(&self, directory: u16, name: &[u8]) -> Result<&Node, u32> {
        let node = self.pass_name(directory, name)?;
        (node.entry.kind == Kind::File).then_some(node).ok_or(24)
    }

    fn pass_part(&self, directory: u16, name: &[u8], offset: u64, length: usize) -> Result<(), u32> {
        let size = self.pass_file(directory, name)?.content.len() as u64;
        let end = offset.checked_add(length as u64);
        end.filter(|&end| end <= size).map(drop).ok_or(26)
    }

    fn pass_list(&self, directory: u16, place: u64) -> Result<(), u32> {
        let entries = self.pass_directory(directory)?.nodes().count() as u64;
        (place < entries).then_some(()).ok_or(22)
    }

    fn pass_make(&self, directory: u16, kind: u8, name: &[u8], comment: &[u8]) -> Result<(), u32> {
        let good = [FILE, DIRECTORY].contains(&kind)
            && (1..=107).contains(&name.len())
            && !name.iter().any(|byte| [0, b':', b'/'].contains(byte))
            && comment.len() <= 79;
        if !good {
            return Err(20);
        }
        match self.pass_directory(directory)?.find(name) {
            Some(_) => Err(23),
            None => Ok(()),
        }
    }

    fn pass_remove(&self, directory: u16, name: &[u8]) -> Result<(), u32> {
        let entry = &self.pass_name(directory, name)?.entry;
        match entry.kind == Kind::Directory && !self.directories[&entry.anode].is_empty() {
            true => Err(25),
            false => Ok(()),
        }
    }

    /// The bytes that a done read gives.
    pub fn content(&self, directory: u16, name: &[u8], offset: u64, length: usize) -> &[u8] {
        let content = self.find(directory, name).map_or(&[][..], |node| &node.content);
        content.get(offset as usize..offset as usize + length).unwrap_or(&[])
    }

    /// The entry that a done list gives.
    pub fn listed(&self, directory: u16, place: u64) -> Option<&Node> {
        self.directories.get(&directory)?.nodes().nth(place as usize)
    }

    /// Does to the tree what a done change does to the disk. The head of a new entry is told in `made`, for the
    /// tree cannot know it.
    pub fn apply(&mut self, call: &Call, made: u16) {
        match call {
            Call::Check | Call::Summary | Call::Read { .. } | Call::List { .. } => {}
            Call::Find { .. } | Call::Label | Call::Report { .. } => {}
            Call::Bitmap { .. } | Call::BitmapDiffers { .. } => {}
            Call::Format { .. } => *self = Tree::default(),
            Call::Make { directory, kind, name, comment, stamp, protection }
            | Call::SafeMake { directory, kind, name, comment, stamp, protection, .. } => {
                let entry = Entry {
                    kind: Kind::of(*kind),
                    anode: made,
                    size: 0,
                    stamp: *stamp,
                    protection: *protection,
                    name: name.clone(),
                    comment: comment.clone(),
                };
                let node = Node { entry, content: Vec::new() };
                if let Some(directory) = self.directories.get_mut(directory) {
                    directory.add(node);
                }
                if *kind == DIRECTORY {
                    self.directories.insert(made, Directory::empty());
                }
            }
            Call::Resize { directory, name, size } | Call::SafeResize { directory, name, size, .. } => {
                if let Some(node) = self.find_mut(*directory, name) {
                    node.content.resize(*size as usize, 0);
                    node.entry.size = *size as u32;
                }
            }
            Call::Write { directory, name, offset, data }
            | Call::SafeWrite { directory, name, offset, data, .. } => {
                if let Some(node) = self.find_mut(*directory, name) {
                    let start = *offset as usize;
                    node.content[start..start + data.len()].copy_from_slice(data);
                }
            }
            Call::Remove { directory, name } | Call::SafeRemove { directory, name, .. } => {
                let gone = self.directories.get_mut(directory).and_then(|directory| directory.take(name));
                if let Some(node) = gone.filter(|node| node.entry.kind == Kind::Directory) {
                    self.directories.remove(&node.entry.anode);
                }
            }
        }
    }

    fn find_mut(&mut self, directory: u16, name: &[u8]) -> Option<&mut Node> {
        self.directories.get_mut(&directory)?.find_mut(name)
    }
}

/// 31 where 100,000 images have been taken, or one of the sums is too large.
fn pass_report(totals: &[u64; TOTALS]) -> Result<(), u32> {
    let images = totals[..18].iter().try_fold(0u64, |images, &count| images.checked_add(count));
    let room = images.is_some_and(|images| images < 100_000);
    let small = totals[18..].iter().all(|&sum| sum <= 10_000_000_000_000);
    (room && small).then_some(()).ok_or(31)
}

fn pass_format(blocks: usize, last_reserved: usize, anode_blocks: usize, name: &[u8]) -> Result<(), u32> {
    let good = (1..=42).contains(&anode_blocks)
        && 3 + anode_blocks <= last_reserved
        && last_reserved < blocks
        && (1..=31).contains(&name.len());
    good.then_some(()).ok_or(20)
}
