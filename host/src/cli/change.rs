//! The commands that change what a disk has, but for `put`.

use std::ffi::OsStr;
use std::fs;
use std::io::Write;
use std::path;

use super::arguments::Arguments;
use super::edit::Edit;
use super::get::{all_apart, RECURSIVE};
use super::items::{self, all_named_apart, Bundle, Count, Present};
use super::paths::Path;
use super::progress::Progress;
use super::store::{self, replace};
use super::walk::Found;
use super::{facts, text, Done, Failure};
use crate::calls::{Library, BLOCK};
use crate::disk::{Disk, Format, Kind, New};

pub fn mkdir<L: Library>(arguments: &Arguments) -> Done {
    let paths = arguments.from(1).iter().map(|word| arguments.path(word));
    let paths: Vec<Path> = paths.collect::<Result<_, _>>()?;
    let (comment, stamp) = (arguments.text("--comment")?.unwrap_or_default(), arguments.stamp()?);
    let protection = arguments.protection()?;
    let new = New { kind: Kind::Directory, name: b"", comment: &comment, stamp, protection };
    store::change(arguments.operand(0), arguments.way(), |edit: &mut Edit<L>| {
        paths.iter().try_for_each(|path| match arguments.has("-p") {
            true => path.with_parents().iter().try_for_each(|path| make_directory(edit, path, &new, true)),
            false => make_directory(edit, path, &new, false),
        })
    })
}

/// Makes a directory; one that is there is taken if `there_too`.
fn make_directory<L: Library>(edit: &mut Edit<L>, path: &Path, new: &New, there_too: bool) -> Done {
    let (parent, name) = path.place(&mut edit.disk)?;
    if there_too && path.is_directory(&mut edit.disk) {
        return Ok(());
    }
    facts::make(edit, parent, &New { name, ..*new }).map_err(|told| told.about(path))
}

pub fn rm<L: Library>(arguments: &Arguments, out: &mut dyn Write) -> Done {
    let recursive = arguments.has(RECURSIVE);
    let (mut count, mut progress) = (Count::default(), Progress::new("removed"));
    store::change(arguments.operand(0), arguments.way(), |edit: &mut Edit<L>| {
        for found in all_apart(arguments, &mut edit.disk, arguments.from(1))? {
            count.add(items::remove(edit, found, recursive, &mut progress)?);
        }
        Ok(())
    })?;
    drop(progress);
    if recursive {
        writeln!(out, "removed {}", count.words())?;
    }
    Ok(())
}

/// What `mv` and `cp` do with an entry, once it is known where it goes.
struct Transfer {
    /// The directory that it goes into.
    at: Path,
    /// Its name there.
    name: Vec<u8>,
}

/// Where an entry goes: into a directory that is there, under its own name, or to a path of its own. One that moves may
/// have its own name in another case.
fn transfer<L: Library>(
    arguments: &Arguments,
    disk: &mut Disk<L>,
    found: &Found,
    several: bool,
    moves: bool,
) -> Result<Transfer, Failure> {
    let word = arguments.from(1).last().map_or(OsStr::new(""), |word| word);
    let to = arguments.path(word)?;
    let one_name = !several && !word.as_encoded_bytes().ends_with(b"/");
    let recased = moves && one_name && to.is(&found.path) && to.name() != found.entry.name;
    let transfer = match (to.is_directory(disk) && !recased, to.parent()) {
        (true, _) => Transfer { at: to, name: found.entry.name.clone() },
        (false, Some(at)) if one_name => Transfer { at, name: to.name().to_vec() },
        _ => return Err(arguments.trouble(format!("{to} is no directory of the disk"))),
    };
    let onto_itself = transfer.at.join(&transfer.name).is(&found.path) && !recased;
    if transfer.at.is_below(&found.path) || onto_itself {
        return Err(arguments.trouble(format!("{} cannot go into itself or onto itself", found.path)));
    }
    Ok(transfer)
}

/// Copies or moves entries within a disk. What is moved goes before it comes anew, so that little room is needed; the disk
/// file is replaced only if all of it is done.
fn transfer_all<L: Library>(arguments: &Arguments, moves: bool, out: &mut dyn Write) -> Done {
    let [from @ .., _] = arguments.from(1) else {
        return Ok(());
    };
    let present = if arguments.has("--force") { Present::Replace } else { Present::Refuse };
    let directories = moves || arguments.has(RECURSIVE);
    let word = if moves { "moved" } else { "copied" };
    let (mut count, mut progress) = (Count::default(), Progress::new(word));
    store::change(arguments.operand(0), arguments.way(), |edit: &mut Edit<L>| {
        let all = all_apart(arguments, &mut edit.disk, from)?;
        let several = all.len() > 1;
        all_named_apart(all.iter().map(|found| found.entry.name.as_slice()), arguments.charset())?;
        for found in all {
            let Transfer { at, name } = transfer(arguments, &mut edit.disk, &found, several, moves)?;
            let read = &mut Progress::new("read");
            let mut bundle = Bundle::from_disk(&mut edit.disk, found.clone(), directories, read)?;
            bundle.items[0].name = name;
            if moves {
                items::remove(edit, found, true, &mut Progress::new("removed"))?;
            }
            bundle.store(edit, &at, present, &mut progress)?;
            count.add(bundle.count());
        }
        Ok(())
    })?;
    drop(progress);
    if count.directories > 0 {
        writeln!(out, "{word} {}", count.words())?;
    }
    Ok(())
}

pub fn mv<L: Library>(arguments: &Arguments, out: &mut dyn Write) -> Done {
    transfer_all::<L>(arguments, true, out)
}

pub fn cp<L: Library>(arguments: &Arguments, out: &mut dyn Write) -> Done {
    transfer_all::<L>(arguments, false, out)
}

pub fn resize<L: Library>(arguments: &Arguments) -> Done {
    let path = arguments.path(arguments.operand(1))?;
    let size = arguments.size(2)?;
    store::change(arguments.operand(0), arguments.way(), |edit: &mut Edit<L>| {
        let (directory, name) = path.place(&mut edit.disk)?;
        facts::resize(edit, directory, name, size).map_err(|told| told.about(&path))
    })
}

/// Last reserved and the number of anode blocks if nothing is said: 63 and 2 for 1,760 blocks, the same shares of
/// other sizes, and always room for the anode blocks and the root directory.
fn default_shape(blocks: usize) -> (u16, u16) {
    let anode_blocks = (blocks / 880).clamp(1, 42);
    let last_reserved = (blocks * 63 / 1_760).max(3 + anode_blocks).min(blocks.saturating_sub(1));
    (last_reserved as u16, anode_blocks as u16)
}

/// The disk's name if none is given: the file's name without its ending, as much of it as fits.
fn default_name(file: &OsStr) -> Vec<u8> {
    let stem = path::Path::new(file).file_stem().unwrap_or(OsStr::new("disk"));
    stem.as_encoded_bytes().iter().copied().take(31).collect()
}

pub fn format<L: Library>(arguments: &Arguments) -> Done {
    let file = arguments.operand(0);
    if !arguments.has("--force") && fs::symlink_metadata(file).is_ok() {
        return Err(arguments.trouble(format!("{}: there already", text::show_os(file))));
    }
    let old = fs::metadata(file).ok();
    // A file larger than any disk counts as one block too many, and an empty one as no disk.
    let old_blocks =
        old.as_ref().map(|old| (old.len() / BLOCK as u64).min(65_536) as usize).filter(|&blocks| blocks > 0);
    let blocks = match arguments.has("--blocks") {
        true => usize::from(arguments.number("--blocks", 0u16)?),
        false => old_blocks.unwrap_or(1_760),
    };
    let (last_reserved, anode_blocks) = default_shape(blocks);
    let name = arguments.text("--name")?.unwrap_or_else(|| default_name(file));
    let format = Format {
        last_reserved: arguments.number("--reserved", last_reserved)?,
        anode_blocks: arguments.number("--anode-blocks", anode_blocks)?,
        name: &name,
        stamp: arguments.stamp()?,
        protection: arguments.disk_protection()?,
    };
    let disk = Disk::<L>::format(blocks, &format).map_err(|error| {
        let wrong = facts::wrong_format(&format, blocks);
        Failure::Refused(format!("{}: {error}: {wrong}", text::show_os(file)))
    })?;
    let _held = old.map(|_| store::hold(file)).transpose()?;
    replace(file, disk.image())
}

#[cfg(test)]
mod tests {
    use super::*;

    #[test]
    fn default_shapes() {
        assert_eq!([5, 6, 1_760, 65_535].map(default_shape), [(4, 1), (4, 1), (63, 2), (2_345, 42)]);
        for blocks in 5..=65_535 {
            let (last_reserved, anode_blocks) = default_shape(blocks);
            assert!((1..=42).contains(&anode_blocks) && 3 + anode_blocks <= last_reserved);
            assert!(usize::from(last_reserved) < blocks);
        }
        assert_eq!(default_name(OsStr::new("disks/bench 4.adf")), b"bench 4");
        assert_eq!(default_name(OsStr::new(&"x".repeat(40))).len(), 31);
    }
}
