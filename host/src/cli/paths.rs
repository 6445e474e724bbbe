//! Paths: names between slashes, walked from the root.

use std::fmt;

use super::text::{self, Charset};
use super::{refused, Failure};
use crate::calls::{Library, ROOT};
use crate::disk::{Disk, Entry, Kind};
use crate::names::alike;

/// The names of a path; none is the root.
#[derive(Clone, Default)]
pub struct Path {
    names: Vec<Vec<u8>>,
    charset: Charset,
}

impl Path {
    /// The path in a text. Slashes at the ends, and several in a row, do not count.
    pub fn parse(text: &[u8], charset: Charset) -> Result<Self, &'static str> {
        let parts = text.split(|&byte| byte == b'/').filter(|part| !part.is_empty());
        let names = parts.map(|part| charset.bytes(part)).collect::<Result<_, _>>()?;
        Ok(Path { names, charset })
    }

    /// The root, with names to be read so.
    pub fn root(charset: Charset) -> Path {
        Path { names: Vec::new(), charset }
    }

    /// The path of these names, to be read so.
    pub fn of(names: Vec<Vec<u8>>, charset: Charset) -> Path {
        Path { names, charset }
    }

    /// The path of a name in this directory.
    pub fn join(&self, name: &[u8]) -> Path {
        let mut names = self.names.clone();
        names.push(name.to_vec());
        Path { names, charset: self.charset }
    }

    pub fn depth(&self) -> usize {
        self.names.len()
    }

    pub fn name(&self) -> &[u8] {
        self.names.last().map_or(b"", |name| name)
    }

    /// The directory that it is in; the root is in none.
    pub fn parent(&self) -> Option<Path> {
        let (_, names) = self.names.split_last()?;
        Some(Path { names: names.to_vec(), charset: self.charset })
    }

    /// The directories that it goes through, and itself.
    pub fn with_parents(&self) -> Vec<Path> {
        let lengths = 1..=self.names.len();
        lengths.map(|length| Path { names: self.names[..length].to_vec(), charset: self.charset }).collect()
    }

    /// Do both lead to one entry? Names that look alike are one.
    pub fn is(&self, other: &Path) -> bool {
        self.names.len() == other.names.len() && self.is_below(other)
    }

    /// Is it the other path, or below it?
    pub fn is_below(&self, other: &Path) -> bool {
        let mut pairs = self.names.iter().zip(&other.names);
        self.names.len() >= other.names.len() && pairs.all(|(one, other)| alike(one, other))
    }

    /// The number of the directory that this path names. If it names something else, the library says so in the
    /// call that is made with the number.
    pub fn directory<L: Library>(&self, disk: &mut Disk<L>) -> Result<u16, Failure> {
        let mut directory = ROOT;
        for name in &self.names {
            directory = disk.find(directory, name).map_err(refused(self))?.anode;
        }
        Ok(directory)
    }

    /// The directory's number and the name in it.
    pub fn place<L: Library>(&self, disk: &mut Disk<L>) -> Result<(u16, &[u8]), Failure> {
        let Some(parent) = self.parent() else {
            return Err(Failure::Trouble("the root has no name; give the path of an entry".into()));
        };
        Ok((parent.directory(disk)?, self.name()))
    }

    /// The entry of this path.
    pub fn entry<L: Library>(&self, disk: &mut Disk<L>) -> Result<Entry, Failure> {
        let (directory, name) = self.place(disk)?;
        disk.find(directory, name).map_err(refused(self))
    }

    /// Is it the root, or a directory that is there?
    pub fn is_directory<L: Library>(&self, disk: &mut Disk<L>) -> bool {
        self.names.is_empty() || self.entry(disk).is_ok_and(|entry| entry.kind == Kind::Directory)
    }

    /// The names between slashes, as they can be typed.
    pub fn text(&self) -> String {
        match self.names.as_slice() {
            [] => String::from("/"),
            names => names.iter().map(|name| self.charset.show(name)).collect::<Vec<_>>().join("/"),
        }
    }
}

/// In quotes unless it is a plain word.
impl fmt::Display for Path {
    fn fmt(&self, f: &mut fmt::Formatter) -> fmt::Result {
        f.write_str(&text::quoted(&self.text()))
    }
}
