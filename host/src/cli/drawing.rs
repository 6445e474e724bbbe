//! Who owns each block of a disk, and the drawing of it as text.

use std::collections::{HashMap, HashSet};

use super::paths::Path;
use super::text::Charset;
use super::{refused, stamps, walk, Failure};
use crate::anodes::Anodes;
use crate::calls::{Library, BLOCK, ROOT};
use crate::disk::{Disk, Kind, Label, Owner};

/// What a block is used for.
#[derive(Clone, Copy, Debug, PartialEq, Eq)]
pub enum Use {
    Free,
    File,
    Directory,
    AnodeBlock,
    Start,
    ToBeFreed,
    Bad,
}

/// Each use with its letter in the map, its name and its colour.
pub const USES: [(Use, char, &str, &str); 7] = [
    (Use::Free, '.', "free", "#eeeeee"),
    (Use::File, 'F', "files", "#4c78a8"),
    (Use::Directory, 'D', "directories", "#f2a900"),
    (Use::AnodeBlock, 'A', "anode blocks", "#54a24b"),
    (Use::Start, 'S', "start blocks", "#555555"),
    (Use::ToBeFreed, '-', "to be freed", "#b9a6d6"),
    (Use::Bad, 'X', "bad", "#d62728"),
];

impl Use {
    fn row(self) -> &'static (Use, char, &'static str, &'static str) {
        USES.iter().find(|row| row.0 == self).unwrap_or(&USES[0])
    }

    pub fn letter(self) -> char {
        self.row().1
    }

    pub fn name(self) -> &'static str {
        self.row().2
    }

    pub fn colour(self) -> &'static str {
        self.row().3
    }
}

/// The blocks of a disk, and who owns them.
pub struct BlockMap {
    /// The use of each block, and its owner.
    pub blocks: Vec<(Use, Owner)>,
    /// The paths of files and directories by the heads of their chains.
    pub paths: HashMap<u16, Path>,
    /// The last block of the part where directories go first.
    pub last_reserved: u16,
    /// The disk's name, date and size.
    pub title: String,
    pub anodes: Anodes,
}

/// A run of blocks with one owner.
pub struct Run {
    pub start: usize,
    pub count: usize,
    pub used: Use,
    pub owner: Owner,
}

impl BlockMap {
    pub fn of<L: Library>(disk: &mut Disk<L>, charset: Charset) -> Result<BlockMap, Failure> {
        let root = Path::root(charset);
        let all = walk::below(disk, &root)?;
        let directories = all.iter().filter(|found| found.entry.kind == Kind::Directory);
        let directories: HashSet<u16> = directories.map(|found| found.entry.anode).chain([ROOT]).collect();
        let paths =
            all.into_iter().map(|found| (found.entry.anode, found.path)).chain([(ROOT, root)]).collect();
        let used = |owner: Owner| match owner {
            Owner::Start => Use::Start,
            Owner::AnodeBlock => Use::AnodeBlock,
            Owner::Free => Use::Free,
            Owner::ToBeFreed => Use::ToBeFreed,
            Owner::Bad => Use::Bad,
            Owner::Entry(head) if directories.contains(&head) => Use::Directory,
            Owner::Entry(_) => Use::File,
        };
        let blocks = disk.owners().map(|owner| (used(owner), owner)).collect();
        let Label { last_reserved, stamp, name, .. } = disk.label().map_err(refused(Path::root(charset)))?;
        let (name, date) = (charset.quoted(&name), stamps::show(stamp));
        let title = format!("{name}, {} UTC, {} blocks", date.trim_end(), disk.image().len() / BLOCK);
        Ok(BlockMap { blocks, paths, last_reserved, title, anodes: disk.anodes() })
    }

    pub fn count(&self, used: Use) -> usize {
        self.blocks.iter().filter(|block| block.0 == used).count()
    }

    /// The runs of blocks with one owner, cut at every multiple of `width`.
    pub fn runs(&self, width: usize) -> Vec<Run> {
        let mut runs: Vec<Run> = Vec::new();
        for (start, &(used, owner)) in self.blocks.iter().enumerate() {
            match runs.last_mut() {
                Some(run) if run.owner == owner && !start.is_multiple_of(width) => run.count += 1,
                _ => runs.push(Run { start, count: 1, used, owner }),
            }
        }
        runs
    }

    /// The file or directory that owns a run.
    pub fn path(&self, run: &Run) -> Option<&Path> {
        match run.owner {
            Owner::Entry(head) => self.paths.get(&head),
            _ => None,
        }
    }

    /// Who owns a run: a path, or what it is used for.
    pub fn owner(&self, run: &Run) -> String {
        self.path(run).map_or_else(|| run.used.name().to_string(), Path::to_string)
    }

    /// A letter for each block, in rows; a bar behind the last reserved block.
    pub fn text(&self, width: usize) -> String {
        let mut text = String::new();
        for (row, blocks) in self.blocks.chunks(width).enumerate() {
            text += &format!("{:5} ", row * width);
            for (column, block) in blocks.iter().enumerate() {
                text.push(block.0.letter());
                if row * width + column == usize::from(self.last_reserved) {
                    text.push('|');
                }
            }
            text.push('\n');
        }
        text
    }

    /// The runs with their owners, a line each.
    pub fn owners(&self) -> String {
        let line = |run: &Run| {
            let last = run.start + run.count - 1;
            format!("{:5} - {last:5}  {}  {}\n", run.start, run.used.letter(), self.owner(run))
        };
        self.runs(usize::MAX).iter().map(line).collect()
    }
}
