//! Files and directories on their way from one place to another: from here to a disk, back, or within a disk.

use std::collections::{HashMap, HashSet};
use std::ffi::OsStr;
use std::fs;
use std::io;
use std::path::{Path as HostPath, PathBuf};

use super::edit::{Edit, Way};
use super::facts::{self, Told};
use super::paths::Path;
use super::progress::Progress;
use super::store;
use super::text::{self, Charset};
use super::walk::{self, Found};
use super::{refused, stamps, Done, Failure};
use crate::calls::{Library, Stamp};
use crate::disk::{Disk, Error, Kind, New};
use crate::names;

/// A file or a directory.
pub struct Item {
    /// The directory that it goes into, by its place in the list; nothing for the first one.
    pub parent: Option<usize>,
    pub name: Vec<u8>,
    pub stamp: Stamp,
    pub protection: u8,
    pub comment: Vec<u8>,
    /// The bytes of a file; nothing for a directory.
    pub bytes: Option<Vec<u8>>,
}

impl Item {
    fn entry(&self) -> New<'_> {
        let kind = if self.bytes.is_some() { Kind::File } else { Kind::Directory };
        New { kind, name: &self.name, comment: &self.comment, stamp: self.stamp, protection: self.protection }
    }
}

/// A file, or a directory with all that is in it. A directory stands before what is in it.
pub struct Bundle {
    pub items: Vec<Item>,
}

/// What the options of a command say of new entries.
pub struct Fields {
    /// The date; the file's own if there is none.
    pub date: Option<Stamp>,
    pub protection: u8,
    pub comment: Vec<u8>,
    pub charset: Charset,
}

/// What is done about a file of the disk that has the name already.
#[derive(Clone, Copy, Debug, PartialEq, Eq)]
pub enum Present {
    Refuse,
    /// It goes, and a new one comes.
    Replace,
    /// It gets the new bytes and keeps all else.
    Keep,
}

/// How many files, directories and bytes.
#[derive(Clone, Copy, Debug, Default, PartialEq, Eq)]
pub struct Count {
    pub files: usize,
    pub directories: usize,
    pub bytes: usize,
}

impl Count {
    pub fn add(&mut self, other: Count) {
        self.files += other.files;
        self.directories += other.directories;
        self.bytes += other.bytes;
    }

    /// `2 files and 1 directory, 1540 bytes`.
    pub fn words(&self) -> String {
        let many = |count: usize, one: &str, several: &str| match count {
            1 => format!("1 {one}"),
            _ => format!("{count} {several}"),
        };
        format!(
            "{} and {}, {}",
            many(self.files, "file", "files"),
            many(self.directories, "directory", "directories"),
            many(self.bytes, "byte", "bytes")
        )
    }
}

// ---- from here

impl Bundle {
    /// A single file.
    pub fn file(name: Vec<u8>, bytes: Vec<u8>, stamp: Stamp, fields: &Fields) -> Self {
        let (protection, comment) = (fields.protection, fields.comment.clone());
        Bundle { items: vec![Item { parent: None, name, stamp, protection, comment, bytes: Some(bytes) }] }
    }

    /// A file from here or, if folders are taken too, a folder with all that is in it.
    pub fn from_here(file: &OsStr, name: Vec<u8>, folders: bool, fields: &Fields) -> Result<Self, Failure> {
        let mut items = Vec::new();
        let mut sources = vec![(PathBuf::from(file), None, name)];
        while let Some((source, parent, name)) = sources.pop() {
            let stamp = own_date(&source, fields)?;
            let bytes = match folders && source.is_dir() {
                true => None,
                false => Some(store::read(source.as_os_str())?),
            };
            if bytes.is_none() {
                let inside = names_in(&source, fields.charset)?;
                sources.extend(inside.into_iter().map(|(path, name)| (path, Some(items.len()), name)));
            }
            let (protection, comment) = (fields.protection, fields.comment.clone());
            items.push(Item { parent, name, stamp, protection, comment, bytes });
        }
        Ok(Bundle { items })
    }

    pub fn count(&self) -> Count {
        let files = self.items.iter().filter_map(|item| item.bytes.as_ref());
        let (files, bytes) = files.fold((0, 0), |(files, bytes), file| (files + 1, bytes + file.len()));
        Count { files, directories: self.items.len() - files, bytes }
    }

    /// The names from the first item down to this one.
    fn names(&self, place: usize) -> Vec<&[u8]> {
        let mut names = Vec::new();
        let mut at = Some(place);
        while let Some(place) = at {
            names.push(self.items[place].name.as_slice());
            at = self.items[place].parent;
        }
        names.reverse();
        names
    }
}

/// What is in a folder, with the names that it has on the disk, last first. Only files and folders are copied, and no two of
/// them may have one name on the disk.
fn names_in(folder: &HostPath, charset: Charset) -> Result<Vec<(PathBuf, Vec<u8>)>, Failure> {
    let mut inside = Vec::new();
    for entry in fs::read_dir(folder).map_err(trouble(folder))? {
        let entry = entry.map_err(trouble(folder))?;
        let (path, kind) = (entry.path(), entry.file_type().map_err(trouble(folder))?);
        if !kind.is_file() && !kind.is_dir() {
            let shown = text::show_os(path.as_os_str());
            return Err(Failure::Trouble(format!(
                "{shown}: neither a file nor a folder, so it cannot be copied"
            )));
        }
        let name = name_on_disk(path.as_os_str(), charset);
        let wrong = |wrong: String| Failure::Trouble(format!("{}: {wrong}", text::show_os(path.as_os_str())));
        inside.push((path.clone(), name.map_err(wrong)?));
    }
    inside.sort_by(|one, other| other.1.cmp(&one.1));
    match names::first_alike(inside.iter().map(|(_, name)| name.as_slice())) {
        Some(name) => {
            let (folder, name) = (text::show_os(folder.as_os_str()), charset.quoted(name));
            let wrong = "another name there is the same on a disk, capitals counted as small letters";
            Err(Failure::Trouble(format!("{folder}: {name}: {wrong}")))
        }
        None => Ok(inside),
    }
}

fn trouble(path: &HostPath) -> impl FnOnce(io::Error) -> Failure + '_ {
    move |error| Failure::Trouble(format!("{}: {error}", text::show_os(path.as_os_str())))
}

/// The date that the options give, else the file's own.
fn own_date(file: &HostPath, fields: &Fields) -> Result<Stamp, Failure> {
    let Some(date) = fields.date else {
        let time = fs::metadata(file).and_then(|metadata| metadata.modified()).map_err(trouble(file))?;
        let outside = || {
            let shown = text::show_os(file.as_os_str());
            let wrong = "its date is before 1978-01-01 or after 2157-06-06; give --date or --no-times";
            Failure::Trouble(format!("{shown}: {wrong}"))
        };
        return stamps::of_time(time).ok_or_else(outside);
    };
    Ok(date)
}

/// The name of a file here on the disk.
pub fn name_on_disk(file: &OsStr, charset: Charset) -> Result<Vec<u8>, String> {
    let name = HostPath::new(file).file_name().ok_or("no name of its own; give --as PATH")?;
    Ok(charset.disk_name(name)?)
}

// ---- to a disk

impl Bundle {
    /// Puts it all into a directory of the disk. A directory that is there already takes what comes in.
    pub fn store<L: Library>(
        &self,
        edit: &mut Edit<L>,
        at: &Path,
        present: Present,
        progress: &mut Progress,
    ) -> Done {
        let top = at.directory(&mut edit.disk)?;
        let mut numbers: Vec<u16> = Vec::new();
        for (place, item) in self.items.iter().enumerate() {
            let directory = item.parent.map_or(top, |parent| numbers[parent]);
            let stored = match &item.bytes {
                Some(bytes) => store_file(edit, directory, item, bytes, present).map(|()| 0),
                None => store_directory(edit, directory, item),
            };
            let path = || self.names(place).into_iter().fold(at.clone(), |path, name| path.join(name));
            numbers.push(stored.map_err(|told| told.about(path()))?);
            progress.step();
        }
        Ok(())
    }
}

/// Makes a file, or takes one that is there, and gives it its bytes. They are written while the file has room for the old and
/// the new ones, so that where it is cut off the one or the other are there as a whole.
fn store_file<L: Library>(
    edit: &mut Edit<L>,
    directory: u16,
    item: &Item,
    bytes: &[u8],
    present: Present,
) -> Result<(), Told> {
    let held = match facts::make(edit, directory, &item.entry()) {
        Err(told) if told.error == Error::AlreadyThere => replace_file(edit, directory, item, present)?,
        made => made.map(|()| 0)?,
    };
    let size = bytes.len() as u64;
    if size > held {
        facts::resize(edit, directory, &item.name, size)?;
    }
    if size > 0 {
        facts::write(edit, directory, &item.name, bytes)?;
    }
    if size < held {
        facts::resize(edit, directory, &item.name, size)?;
    }
    Ok(())
}

/// Makes the new one in place of a file that is there, unless that is to stay; a directory there is never replaced. Answers
/// how many bytes the file has then.
fn replace_file<L: Library>(
    edit: &mut Edit<L>,
    directory: u16,
    item: &Item,
    present: Present,
) -> Result<u64, Told> {
    let there = edit.disk.find(directory, &item.name)?;
    match (present, there.kind) {
        (Present::Refuse, Kind::File) => {
            let hint = match edit.way() {
                Way::Replaced => "--force replaces it",
                Way::InPlace => "--keep replaces its bytes",
            };
            Err(Told::new(Error::AlreadyThere, hint))
        }
        (Present::Refuse, Kind::Directory) => Err(Error::AlreadyThere.into()),
        (_, Kind::Directory) => Err(Error::IsDirectory.into()),
        (Present::Replace, Kind::File) => {
            facts::remove(edit, directory, &item.name)?;
            facts::make(edit, directory, &item.entry()).map(|()| 0)
        }
        (Present::Keep, Kind::File) => Ok(u64::from(there.size)),
    }
}

/// Makes a directory, or takes one that is there, and answers its number.
fn store_directory<L: Library>(edit: &mut Edit<L>, directory: u16, item: &Item) -> Result<u16, Told> {
    let made = facts::make(edit, directory, &item.entry());
    match made {
        Err(told) if told.error != Error::AlreadyThere => return Err(told),
        _ => {}
    }
    let entry = edit.disk.find(directory, &item.name)?;
    match entry.kind {
        Kind::Directory => Ok(entry.anode),
        Kind::File => Err(Told::new(Error::AlreadyThere, "a file, and a directory is to come there")),
    }
}

// ---- from a disk

impl Bundle {
    /// A file of the disk or, if directories are taken too, a directory with all that is in it.
    pub fn from_disk<L: Library>(
        disk: &mut Disk<L>,
        found: Found,
        directories: bool,
        progress: &mut Progress,
    ) -> Result<Self, Failure> {
        let all = match directories {
            true => walk::with_all_below(disk, found)?,
            false => vec![found],
        };
        let mut places: HashMap<u16, usize> = HashMap::new();
        let mut items = Vec::new();
        for Found { path, directory, entry } in all {
            let bytes = match entry.kind == Kind::Directory && directories {
                true => None,
                false => Some(disk.read_file(directory, &entry).map_err(refused(&path))?),
            };
            if bytes.is_none() {
                places.insert(entry.anode, items.len());
            }
            items.push(Item {
                parent: places.get(&directory).copied(),
                name: entry.name,
                stamp: entry.stamp,
                protection: entry.protection,
                comment: entry.comment,
                bytes,
            });
            progress.step();
        }
        Ok(Bundle { items })
    }
}

/// Removes an entry or, if that is asked for, a directory with all that is in it. Says how much went.
pub fn remove<L: Library>(
    edit: &mut Edit<L>,
    found: Found,
    directories: bool,
    progress: &mut Progress,
) -> Result<Count, Failure> {
    let all = match directories {
        true => walk::with_all_below(&mut edit.disk, found)?,
        false => vec![found],
    };
    let mut count = Count::default();
    for Found { path, directory, entry } in all.into_iter().rev() {
        facts::remove(edit, directory, &entry.name).map_err(|told| told.about(&path))?;
        match entry.kind {
            Kind::Directory => count.directories += 1,
            Kind::File => {
                count.files += 1;
                count.bytes += entry.size as usize;
            }
        }
        progress.step();
    }
    Ok(count)
}

// ---- to here

/// How things are written here.
pub struct Here {
    pub force: bool,
    pub times: bool,
    pub charset: Charset,
}

impl Bundle {
    /// Where each item goes if the first goes to a path.
    fn targets(&self, first: &HostPath, here: &Here) -> Result<Vec<PathBuf>, Failure> {
        let mut targets: Vec<PathBuf> = Vec::new();
        for item in &self.items {
            let Some(parent) = item.parent else {
                targets.push(first.to_path_buf());
                continue;
            };
            let name = here.charset.file_name(&item.name).ok_or_else(|| no_name(&item.name, here.charset))?;
            targets.push(targets[parent].join(name));
        }
        Ok(targets)
    }

    /// Where each item goes if the first goes to a path. Nothing may be there already, but by force.
    pub fn plan_here(&self, first: &HostPath, here: &Here) -> Result<Vec<PathBuf>, Failure> {
        let targets = self.targets(first, here)?;
        for (item, target) in self.items.iter().zip(&targets) {
            may_write(item, target, here)?;
        }
        Ok(targets)
    }

    /// Writes it here as planned.
    pub fn write_here(&self, targets: &[PathBuf], here: &Here, progress: &mut Progress) -> Done {
        targets.first().into_iter().for_each(|first| store::sweep(first));
        let mut made = Vec::new();
        for (item, target) in self.items.iter().zip(targets) {
            let time = stamps::time(item.stamp).filter(|_| here.times);
            match &item.bytes {
                Some(bytes) => store::write_copy(target.as_os_str(), bytes, time)?,
                None if target.is_dir() => {}
                None => {
                    fs::create_dir(target).map_err(trouble(target))?;
                    made.extend(time.map(|time| (target, time)));
                }
            }
            progress.step();
        }
        // Last, for what is written into a folder changes its date.
        for (folder, time) in made.into_iter().rev() {
            fs::File::open(folder).and_then(|folder| folder.set_modified(time)).map_err(trouble(folder))?;
        }
        Ok(())
    }
}

/// Several things that go into one directory of a disk must have different names there, capitals counted as small letters,
/// or one would replace the other.
pub fn all_named_apart<'a>(names: impl Iterator<Item = &'a [u8]>, charset: Charset) -> Done {
    names::first_alike(names).map_or(Ok(()), |name| Err(two_of_a_name(name, charset)))
}

/// The same for a folder here, where every byte counts.
pub fn all_named_apart_here<'a>(names: impl Iterator<Item = &'a [u8]>, charset: Charset) -> Done {
    let mut seen = HashSet::new();
    let twice = names.into_iter().find(|name| !seen.insert(*name));
    twice.map_or(Ok(()), |name| Err(two_of_a_name(name, charset)))
}

fn two_of_a_name(name: &[u8], charset: Charset) -> Failure {
    let name = charset.quoted(name);
    Failure::Trouble(format!("{name}: two of that name cannot go to the same place"))
}

/// No file here can have that name.
pub fn no_name(name: &[u8], charset: Charset) -> Failure {
    let name = charset.quoted(name);
    Failure::Trouble(format!(
        "{name}: no file here can have that name: give FILE, or --latin1 if it is text in Latin-1"
    ))
}

/// What is there under a name, a link that leads nowhere too, is replaced only by force, and a folder takes a folder in.
fn may_write(item: &Item, target: &HostPath, here: &Here) -> Done {
    let there = fs::symlink_metadata(target).is_ok();
    let trouble = |wrong: &str| {
        let shown = text::show_os(target.as_os_str());
        Err(Failure::Trouble(format!("{shown}: {wrong}")))
    };
    match (there, target.is_dir(), &item.bytes) {
        (true, true, Some(_)) => trouble("a folder is there already"),
        (true, false, None) => trouble("there already, and no folder"),
        (true, false, Some(_)) if !here.force => trouble("there already; --force replaces it"),
        _ => Ok(()),
    }
}
