//! All that a disk holds, by list calls.

use std::collections::HashMap;

use super::paths::Path;
use super::text::Charset;
use super::{refused, Failure};
use crate::calls::{Library, ROOT};
use crate::disk::{Disk, Entry, Error, Kind};

/// An entry and where it is.
#[derive(Clone)]
pub struct Found {
    pub path: Path,
    /// The number of the directory that it is in.
    pub directory: u16,
    pub entry: Entry,
}

/// The entries of one directory.
pub fn entries<L: Library>(disk: &mut Disk<L>, path: &Path, directory: u16) -> Result<Vec<Found>, Failure> {
    let found = |entry: Entry| Found { path: path.join(&entry.name), directory, entry };
    disk.list(directory).map(|entry| entry.map(found)).collect::<Result<_, _>>().map_err(refused(path))
}

/// All entries below a directory; each directory is followed by what is in it.
pub fn below<L: Library>(disk: &mut Disk<L>, path: &Path) -> Result<Vec<Found>, Failure> {
    let directory = path.directory(disk)?;
    let inside = entries(disk, path, directory)?;
    all_of(disk, inside)
}

/// An entry and all that is below it; each directory is followed by what is in it.
pub fn with_all_below<L: Library>(disk: &mut Disk<L>, found: Found) -> Result<Vec<Found>, Failure> {
    all_of(disk, vec![found])
}

fn all_of<L: Library>(disk: &mut Disk<L>, mut waiting: Vec<Found>) -> Result<Vec<Found>, Failure> {
    waiting.reverse();
    let mut all = Vec::new();
    while let Some(found) = waiting.pop() {
        if found.entry.kind == Kind::Directory {
            let inside = entries(disk, &found.path, found.entry.anode)?;
            waiting.extend(inside.into_iter().rev());
        }
        all.push(found);
    }
    Ok(all)
}

/// All entries of a disk by the byte of the image where each begins.
pub struct Places {
    /// Each with the number of the directory that it is in.
    entries: HashMap<u32, (u16, Entry)>,
    /// The directories but the root, by number: the one that each is in, and its name.
    directories: HashMap<u16, (u16, Vec<u8>)>,
    charset: Charset,
}

impl Places {
    /// No entries.
    pub fn none(charset: Charset) -> Self {
        Places { entries: HashMap::new(), directories: HashMap::new(), charset }
    }

    pub fn of<L: Library>(disk: &mut Disk<L>, charset: Charset) -> Result<Self, Failure> {
        let mut places = Places::none(charset);
        let mut waiting = vec![ROOT];
        while let Some(directory) = waiting.pop() {
            for number in 0.. {
                let (place, entry) = match disk.placed_entry(directory, number) {
                    Ok(placed) => placed,
                    Err(Error::NotFound) => break,
                    Err(error) => return Err(refused(places.path(directory))(error)),
                };
                if entry.kind == Kind::Directory {
                    places.directories.insert(entry.anode, (directory, entry.name.clone()));
                    waiting.push(entry.anode);
                }
                places.entries.insert(place, (directory, entry));
            }
        }
        Ok(places)
    }

    /// The path of a directory.
    fn path(&self, mut directory: u16) -> Path {
        let mut names = Vec::new();
        while let Some((parent, name)) = self.directories.get(&directory) {
            names.push(name.clone());
            directory = *parent;
        }
        names.reverse();
        Path::of(names, self.charset)
    }

    /// The entry that begins at a byte.
    pub fn found(&self, place: u32) -> Result<Found, Failure> {
        let Some((directory, entry)) = self.entries.get(&place) else {
            return Err(Failure::Trouble(format!("no entry begins at byte {place}")));
        };
        let path = self.path(*directory).join(&entry.name);
        Ok(Found { path, directory: *directory, entry: entry.clone() })
    }
}
