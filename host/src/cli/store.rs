//! Disk files. A file is not changed in place: the new bytes go into a temporary file beside it, which has its owner and
//! mode before the first of them, and takes its name when they are all there. A change holds the disk file until then, so
//! that changes of one disk by several processes come one after the other and none is lost.
//!
//! Safe changes are made in the file or the device itself, block by block in their order. All blocks of a change are on the
//! medium before its root is written, and the root before the next change begins.

use std::ffi::OsStr;
use std::fs::{self, File, Metadata, OpenOptions};
use std::io::{self, Read, Seek, SeekFrom, Write};
use std::path::{Path, PathBuf};
use std::process;
use std::time::SystemTime;

use super::edit::{Edit, Way};
use super::progress::Progress;
use super::{refused, text, Failure};
use crate::calls::{Library, BLOCK};
use crate::disk::Disk;
use crate::refusals::Error;
use crate::safe::{BlockWrite, Writes};

/// More than any disk holds; nothing is read beyond it.
const MOST_BYTES: u64 = 65_536 * BLOCK as u64;

fn trouble(name: &OsStr) -> impl FnOnce(io::Error) -> Failure + '_ {
    move |error| Failure::Trouble(format!("{}: {error}", text::show_os(name)))
}

/// All that a file holds. Of one that fits on no disk it is cut off where it still fits on none.
fn bytes(file: impl Read) -> io::Result<Vec<u8>> {
    let mut bytes = Vec::new();
    file.take(MOST_BYTES).read_to_end(&mut bytes)?;
    Ok(bytes)
}

/// The bytes of a file or, for `-`, of standard input.
pub fn read(name: &OsStr) -> Result<Vec<u8>, Failure> {
    let read = match name == "-" {
        true => bytes(io::stdin().lock()),
        false => File::open(name).and_then(bytes),
    };
    read.map_err(trouble(name))
}

/// The disk in a file or, for `-`, on standard input.
pub fn load<L: Library>(name: &OsStr) -> Result<Disk<L>, Failure> {
    read(name).map(Disk::new)
}

/// The disk in a file, if the check accepts it.
pub fn load_sound<L: Library>(name: &OsStr) -> Result<Disk<L>, Failure> {
    let mut disk = load(name)?;
    disk.check().map_err(refused_disk(name))?;
    Ok(disk)
}

/// Looks at the disk in a file, if the check accepts it.
pub fn look<L: Library, T>(
    name: &OsStr,
    work: impl FnOnce(&mut Disk<L>) -> Result<T, Failure>,
) -> Result<T, Failure> {
    let mut disk = load_sound(name)?;
    work(&mut disk).map_err(|failure| failure.on(name))
}

/// Whether the open file still stands under this name. Where files have no numbers to tell, it is taken to.
fn is_current(file: &File, name: &OsStr) -> io::Result<bool> {
    #[cfg(unix)]
    {
        use std::os::unix::fs::MetadataExt;
        let (open, named) = (file.metadata()?, fs::metadata(name)?);
        Ok((open.dev(), open.ino()) == (named.dev(), named.ino()))
    }
    #[cfg(not(unix))]
    Ok(true)
}

/// Waits until no other process changes the disk in a file, and keeps them waiting as long as the answer lives.
pub fn hold(name: &OsStr) -> Result<File, Failure> {
    hold_open(name, OpenOptions::new().read(true))
}

/// The same with the file opened so.
fn hold_open(name: &OsStr, options: &OpenOptions) -> Result<File, Failure> {
    let held = || loop {
        let file = options.open(name)?;
        match file.lock() {
            // A file system without locks leaves it to the user to run one command at a time.
            Err(error) if error.kind() != io::ErrorKind::Unsupported => return Err(error),
            // The change that was waited for has put another file in its place.
            Ok(()) if !is_current(&file, name)? => continue,
            _ => return Ok(file),
        }
    };
    held().map_err(trouble(name))
}

/// Changes the disk in a file. If any of it is refused, the file is as it was. Only what is written in place can be cut off
/// between two changes.
pub fn change<L: Library>(
    name: &OsStr,
    way: Way,
    work: impl FnOnce(&mut Edit<L>) -> Result<(), Failure>,
) -> Result<(), Failure> {
    if name == "-" {
        return Err(Failure::Trouble("a disk on standard input cannot be changed".into()));
    }
    let unfit = |old: &Metadata| if way == Way::InPlace && is_device(old) { None } else { unfit(old) };
    if let Some(wrong) = fs::metadata(name).ok().as_ref().and_then(unfit) {
        return Err(Failure::Trouble(format!("{}: {wrong}", text::show_os(name))));
    }
    let held = match way {
        Way::Replaced => hold(name)?,
        Way::InPlace => hold_open(name, OpenOptions::new().read(true).write(true))?,
    };
    let mut disk = Disk::new(bytes(&held).map_err(trouble(name))?);
    disk.check().map_err(refused_disk(name))?;
    let mut edit = Edit::new(disk, way);
    work(&mut edit).map_err(|failure| failure.on(name))?;
    match way {
        Way::Replaced => replace(name, edit.disk.image()),
        Way::InPlace => write_in_place(name, held, &edit.into_lists()),
    }
}

/// Where block writes go.
trait Medium {
    fn put(&mut self, write: BlockWrite) -> io::Result<()>;

    /// Waits until all that was put is safe from a power cut.
    fn flush(&mut self) -> io::Result<()>;
}

/// A disk file or a device.
struct Drive {
    file: File,
    progress: Progress,
}

impl Medium for Drive {
    fn put(&mut self, write: BlockWrite) -> io::Result<()> {
        self.file.seek(SeekFrom::Start(write.offset()))?;
        self.file.write_all(write.bytes)?;
        self.progress.step();
        Ok(())
    }

    fn flush(&mut self) -> io::Result<()> {
        self.file.sync_data()
    }
}

/// Makes the block writes of a change: the root's when all others are on the medium.
fn put_all(writes: &Writes, medium: &mut impl Medium) -> io::Result<()> {
    let (mut others, root) = writes.parts();
    others.try_for_each(|write| medium.put(write))?;
    medium.flush()?;
    root.map_or(Ok(()), |root| medium.put(root))?;
    medium.flush()
}

/// Makes the block writes of several changes, one after the other. If that fails, says in which, counted from 0.
fn put_lists(lists: &[Writes], medium: &mut impl Medium) -> Result<(), (usize, io::Error)> {
    lists
        .iter()
        .enumerate()
        .try_for_each(|(place, writes)| put_all(writes, medium).map_err(|error| (place, error)))
}

/// Makes the block writes of several changes in a disk file or a device.
fn write_in_place(name: &OsStr, file: File, lists: &[Writes]) -> Result<(), Failure> {
    let mut drive = Drive { file, progress: Progress::new("blocks written") };
    put_lists(lists, &mut drive).map_err(|(place, error)| {
        let (name, step, steps) = (text::show_os(name), place + 1, lists.len());
        let left = "the disk holds what it held before that change or after it";
        Failure::Trouble(format!("{name}: {error}: cut off in change {step} of {steps}; {left}"))
    })
}

/// Turns a refusal about a disk file into a failure.
pub fn refused_disk(name: &OsStr) -> impl FnOnce(Error) -> Failure {
    refused(text::show_os(name))
}

/// What temporary files are called, between these and with a number.
const TEMPORARY: (&str, &str) = (".pfs-", ".tmp");

/// A new file that is removed unless it was given its name. It is locked as long as its process lives.
struct Temporary {
    path: PathBuf,
    file: File,
    named: bool,
}

/// What a file is opened with that nobody but its owner can read until it has the mode of the one that it replaces.
fn private() -> OpenOptions {
    let mut options = OpenOptions::new();
    options.write(true).create_new(true);
    #[cfg(unix)]
    std::os::unix::fs::OpenOptionsExt::mode(&mut options, 0o600);
    options
}

impl Temporary {
    /// A new file in the folder of another one; with `old`, with the owner and mode of that.
    fn beside(other: &Path, old: Option<&Metadata>) -> io::Result<Self> {
        let options =
            if old.is_some() { private() } else { OpenOptions::new().write(true).create_new(true).clone() };
        let mut tries = 0;
        loop {
            let (before, behind) = TEMPORARY;
            let path = other.with_file_name(format!("{before}{}-{tries}{behind}", process::id()));
            tries += 1;
            let file = match options.open(&path) {
                Ok(file) => file,
                // Left behind by a process that had the same number and was stopped.
                Err(error) if error.kind() == io::ErrorKind::AlreadyExists && tries < 100 => continue,
                Err(error) => return Err(error),
            };
            let temporary = Temporary { path, file, named: false };
            if temporary.is_kept()? {
                old.map_or(Ok(()), |old| temporary.take_after(old))?;
                return Ok(temporary);
            }
        }
    }

    /// Locks the file, unless another process has swept it away before that.
    fn is_kept(&self) -> io::Result<bool> {
        match self.file.lock() {
            Err(error) if error.kind() != io::ErrorKind::Unsupported => Err(error),
            _ => Ok(is_current(&self.file, self.path.as_os_str()).unwrap_or(false)),
        }
    }

    /// Gives it the owner and the mode of the file that it is to replace.
    fn take_after(&self, old: &Metadata) -> io::Result<()> {
        #[cfg(unix)]
        {
            use std::os::unix::fs::{fchown, MetadataExt};
            let own = self.file.metadata()?;
            if (own.uid(), own.gid()) != (old.uid(), old.gid()) {
                fchown(&self.file, Some(old.uid()), Some(old.gid())).map_err(|error| {
                    io::Error::new(
                        error.kind(),
                        format!("its owner {}:{} cannot be kept: {error}", old.uid(), old.gid()),
                    )
                })?;
            }
        }
        self.file.set_permissions(old.permissions())
    }

    fn fill(&mut self, bytes: &[u8], time: Option<SystemTime>, flush: bool) -> io::Result<()> {
        self.file.write_all(bytes)?;
        if let Some(time) = time {
            self.file.set_modified(time)?;
        }
        match flush {
            true => self.file.sync_all(),
            false => Ok(()),
        }
    }

    /// Takes the place of the other file.
    fn rename(mut self, other: &Path, flush: bool) -> io::Result<()> {
        fs::rename(&self.path, other)?;
        self.named = true;
        match flush {
            true => flush_folder(other),
            false => Ok(()),
        }
    }
}

impl Drop for Temporary {
    fn drop(&mut self) {
        if !self.named {
            // Nothing better can be done if it cannot be removed.
            let _ = fs::remove_file(&self.path);
        }
    }
}

/// The folder of a file.
fn folder_of(file: &Path) -> &Path {
    file.parent().filter(|folder| !folder.as_os_str().is_empty()).unwrap_or(Path::new("."))
}

/// Waits until the new name of a file is safe from a power cut, where folders can be flushed.
fn flush_folder(file: &Path) -> io::Result<()> {
    let flushed =
        if cfg!(unix) { File::open(folder_of(file)).and_then(|folder| folder.sync_all()) } else { Ok(()) };
    match flushed {
        Err(error) if [io::ErrorKind::InvalidInput, io::ErrorKind::Unsupported].contains(&error.kind()) => {
            Ok(())
        }
        Err(error) => {
            Err(io::Error::new(error.kind(), format!("written, but its folder is not flushed: {error}")))
        }
        Ok(()) => Ok(()),
    }
}

/// Removes the temporary files in the folder of a file whose processes were stopped: those that nobody has locked. What
/// cannot be looked at or removed stays.
pub fn sweep(file: &Path) {
    let is_temporary = |path: &Path| {
        let name = path.file_name().and_then(OsStr::to_str).unwrap_or_default();
        name.starts_with(TEMPORARY.0) && name.ends_with(TEMPORARY.1)
    };
    let entries = fs::read_dir(folder_of(file)).into_iter().flatten().flatten();
    for path in entries.map(|entry| entry.path()).filter(|path| is_temporary(path)) {
        let Ok(left) = File::open(&path) else {
            continue;
        };
        // The lock is held until the file is gone, so that who has just made it sees that.
        if left.try_lock().is_ok() {
            let _ = fs::remove_file(&path);
        }
    }
}

/// Is it a drive itself?
fn is_device(old: &Metadata) -> bool {
    #[cfg(unix)]
    return std::os::unix::fs::FileTypeExt::is_block_device(&old.file_type());
    #[cfg(not(unix))]
    false
}

/// Why a file that is there cannot be replaced.
fn unfit(old: &Metadata) -> Option<&'static str> {
    if is_device(old) {
        return Some("a device can only be written in place, which put, mkdir, rm and resize do with --safe");
    }
    match (old.is_file(), old.permissions().readonly()) {
        (true, false) => None,
        (true, true) => Some("the file is write-protected"),
        (false, _) if old.is_dir() => Some("a folder and no file"),
        (false, _) => Some("not a regular file"),
    }
}

/// Gives a file new content, as a whole or not at all. Behind a symbolic link the file it leads to is replaced.
pub fn replace(name: &OsStr, bytes: &[u8]) -> Result<(), Failure> {
    replace_with(name, bytes, None, true)
}

/// The same for a copy of a file that is on a disk: with a date of change that is not the clock's, and not waiting until it
/// is safe from a power cut, since it can be had again.
pub fn write_copy(name: &OsStr, bytes: &[u8], time: Option<SystemTime>) -> Result<(), Failure> {
    replace_with(name, bytes, time, false)
}

fn replace_with(name: &OsStr, bytes: &[u8], time: Option<SystemTime>, flush: bool) -> Result<(), Failure> {
    let path = fs::canonicalize(name).unwrap_or_else(|_| PathBuf::from(name));
    let old = fs::metadata(&path).ok();
    if let Some(wrong) = old.as_ref().and_then(unfit) {
        return Err(Failure::Trouble(format!("{}: {wrong}", text::show_os(name))));
    }
    if flush {
        sweep(&path);
    }
    let written = Temporary::beside(&path, old.as_ref()).and_then(|mut temporary| {
        temporary.fill(bytes, time, flush)?;
        temporary.rename(&path, flush)
    });
    written.map_err(trouble(name))
}

#[cfg(test)]
mod tests {
    use super::*;
    use crate::calls::ROOT;
    use crate::disk::{Format, New};
    use crate::model::Model;

    /// What was done to a medium: the block that was put, or nothing for a flush. It fails after so many.
    struct Recorder {
        done: Vec<Option<u16>>,
        room: usize,
    }

    impl Recorder {
        fn note(&mut self, what: Option<u16>) -> io::Result<()> {
            if self.done.len() == self.room {
                return Err(io::Error::other("no more"));
            }
            self.done.push(what);
            Ok(())
        }
    }

    impl Medium for Recorder {
        fn put(&mut self, write: BlockWrite) -> io::Result<()> {
            self.note(Some(write.block))
        }

        fn flush(&mut self) -> io::Result<()> {
            self.note(None)
        }
    }

    /// The root is put alone between two flushes, and what comes next only after the second.
    #[test]
    fn flushes_stand_around_every_root() {
        let mut disk = Disk::<Model>::format(20, &Format::new(9, 1, b"disk")).expect("it is formatted");
        let lists = [
            disk.safe_make(ROOT, &New::file(b"f")).expect("there is room"),
            disk.safe_resize(ROOT, b"f", 600).expect("there is room"),
        ];
        // The directory block, the anode block; then two blocks of the file, and the same two again.
        let done =
            [5, 6, 0, 2, 0, 10, 11, 7, 8, 0, 2, 0].map(|block| Some(block).filter(|&block| block != 0));
        for room in 0..=done.len() {
            let mut medium = Recorder { done: Vec::new(), room };
            let put = put_lists(&lists, &mut medium).map_err(|(place, _)| place);
            let expected = if room == done.len() { Ok(()) } else { Err(usize::from(room >= 5)) };
            assert_eq!((put, medium.done.as_slice()), (expected, &done[..room]));
        }
    }

    /// What is put into a file stands where the block is, and the rest of the file stays.
    #[test]
    fn blocks_are_put_in_their_place() {
        let folder = std::env::temp_dir().join(format!("pfs-drive-{}", process::id()));
        fs::create_dir_all(&folder).expect("the folder is made");
        let name = folder.join("disk.adf");
        let mut disk = Disk::<Model>::format(20, &Format::new(9, 1, b"disk")).expect("it is formatted");
        fs::write(&name, disk.image()).expect("the file is written");
        let lists = [disk.safe_make(ROOT, &New::directory(b"d")).expect("there is room")];
        let open = || OpenOptions::new().read(true).write(true).open(&name).expect("it is opened");
        assert!(write_in_place(name.as_os_str(), open(), &lists).is_ok());
        assert!(fs::read(&name).expect("the file is read") == disk.image());
        // One that cannot be written says how far it came.
        let closed = File::open(&name).expect("it is opened");
        let failed = write_in_place(name.as_os_str(), closed, &lists).expect_err("it cannot be written");
        let message = failed.message().expect("it is said");
        assert!(message.ends_with(
            ": cut off in change 1 of 1; the disk holds what it held before that change or after it"
        ));
        assert!(fs::read(&name).expect("the file is read") == disk.image());
        fs::remove_dir_all(&folder).expect("the folder is removed");
    }

    /// Nobody may read a byte of the new file who could not read the old one.
    #[cfg(unix)]
    #[test]
    fn the_mode_comes_before_the_first_byte() {
        use std::os::unix::fs::{MetadataExt, PermissionsExt};
        let folder = std::env::temp_dir().join(format!("pfs-mode-{}", process::id()));
        fs::create_dir_all(&folder).expect("the folder is made");
        let disk = folder.join("disk.adf");
        fs::write(&disk, b"old").expect("the file is written");
        fs::set_permissions(&disk, fs::Permissions::from_mode(0o640)).expect("the mode is set");
        let made = private().open(folder.join("new")).expect("it is made");
        assert_eq!(made.metadata().expect("it is there").mode() & 0o777, 0o600);
        let old = fs::metadata(&disk).expect("it is there");
        let temporary = Temporary::beside(&disk, Some(&old)).expect("it is made");
        let own = temporary.file.metadata().expect("it is there");
        assert_eq!((own.len(), own.mode(), own.uid(), own.gid()), (0, old.mode(), old.uid(), old.gid()));
        drop(temporary);
        fs::remove_dir_all(&folder).expect("the folder is removed");
    }

    #[test]
    fn a_temporary_file_never_stays() {
        let folder = std::env::temp_dir().join(format!("pfs-store-{}", process::id()));
        fs::create_dir_all(&folder).expect("the folder is made");
        let (disk, missing) = (folder.join("disk.adf"), folder.join("missing").join("disk.adf"));
        fs::write(&disk, b"old").expect("the file is written");
        let count = || fs::read_dir(&folder).expect("the folder is read").count();

        // Two at a time have names of their own; one that cannot take the other's place is removed.
        let mut first = Temporary::beside(&disk, None).expect("it is made");
        let second = Temporary::beside(&disk, None).expect("it is made");
        assert_eq!(count(), 3);
        drop(second);
        first.fill(b"new", None, true).expect("it is filled");
        assert!(first.rename(&missing, true).is_err());
        assert_eq!((count(), fs::read(&disk).ok().as_deref()), (1, Some(&b"old"[..])));

        assert!(replace(disk.as_os_str(), b"new").is_ok() && replace(missing.as_os_str(), b"new").is_err());
        assert!(replace(folder.as_os_str(), b"new").is_err());
        assert_eq!((count(), fs::read(&disk).ok().as_deref()), (1, Some(&b"new"[..])));
        // What a stopped process has left is swept away, and what a living one still fills is not.
        let (left, living) =
            (folder.join(".pfs-1-0.tmp"), Temporary::beside(&disk, None).expect("it is made"));
        fs::write(&left, b"half").expect("the file is written");
        assert_eq!(count(), 3);
        assert!(replace(disk.as_os_str(), b"newer").is_ok());
        assert_eq!((count(), left.exists(), living.path.exists()), (2, false, true));
        drop(living);
        fs::remove_dir_all(&folder).expect("the folder is removed");
    }
}
