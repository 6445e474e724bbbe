//! `cat` and `get`: files of a disk to standard output, and files and directories to here.

use std::ffi::OsStr;
use std::io::Write;
use std::path::{Path, PathBuf};

use super::arguments::Arguments;
use super::items::{all_named_apart_here, no_name, Bundle, Count, Here};
use super::progress::Progress;
use super::walk::Found;
use super::{store, text, Done, Failure};
use crate::calls::Library;
use crate::disk::Disk;

/// The flag of commands that take directories with all that is in them.
pub const RECURSIVE: &str = "-r";

/// The entries that some words stand for, each once.
pub fn all_found<L: Library>(
    arguments: &Arguments,
    disk: &mut Disk<L>,
    words: &[impl AsRef<OsStr>],
) -> Result<Vec<Found>, Failure> {
    let mut all: Vec<Found> = Vec::new();
    for word in words {
        let pattern = arguments.pattern(word.as_ref())?;
        let found = pattern.found(disk)?;
        let root = || Failure::Trouble("the root has no name; give the path of an entry".into());
        for found in found.ok_or_else(root)? {
            let same =
                |other: &Found| (other.directory, &other.entry.name) == (found.directory, &found.entry.name);
            if !all.iter().any(same) {
                all.push(found);
            }
        }
    }
    Ok(all)
}

/// The same for commands that take them away, or directories with all that is in them: none may be in another.
pub fn all_apart<L: Library>(
    arguments: &Arguments,
    disk: &mut Disk<L>,
    words: &[impl AsRef<OsStr>],
) -> Result<Vec<Found>, Failure> {
    let all = all_found(arguments, disk, words)?;
    for (place, found) in all.iter().enumerate() {
        let mut others = all.iter().enumerate().filter(|(other, _)| *other != place);
        if let Some((_, other)) = others.find(|(_, other)| found.path.is_below(&other.path)) {
            let message = format!("{} is in {}, which is named too", found.path, other.path);
            return Err(arguments.trouble(message));
        }
    }
    Ok(all)
}

/// All that some words stand for, with the bytes.
fn bundles<L: Library>(arguments: &Arguments, words: &[impl AsRef<OsStr>]) -> Result<Vec<Bundle>, Failure> {
    let (directories, mut progress) = (arguments.has(RECURSIVE), Progress::new("read"));
    store::look(arguments.operand(0), |disk: &mut Disk<L>| {
        let all = all_found(arguments, disk, words)?;
        all.into_iter().map(|found| Bundle::from_disk(disk, found, directories, &mut progress)).collect()
    })
}

fn write_files(bundles: &[Bundle], out: &mut dyn Write) -> Done {
    for item in bundles.iter().flat_map(|bundle| &bundle.items) {
        out.write_all(item.bytes.as_deref().unwrap_or_default())?;
    }
    Ok(())
}

pub fn cat<L: Library>(arguments: &Arguments, out: &mut dyn Write) -> Done {
    let bundles = bundles::<L>(arguments, arguments.from(1))?;
    write_files(&bundles, out)
}

/// Where things go.
enum Target<'a> {
    Output,
    /// Into this folder, under their own names.
    Folder(&'a Path),
    /// The one thing, under this name.
    Name(&'a Path),
}

/// What the last of several words says.
fn target<'a>(arguments: &Arguments, word: &'a OsStr) -> Result<Target<'a>, Failure> {
    let path = Path::new(word);
    match (word == "-", path.is_dir(), word.as_encoded_bytes().ends_with(b"/")) {
        (true, _, _) => Ok(Target::Output),
        (_, true, _) => Ok(Target::Folder(path)),
        (_, _, true) => Err(arguments.trouble(format!("{}: no such folder", text::show_os(word)))),
        _ => Ok(Target::Name(path)),
    }
}

pub fn get<L: Library>(arguments: &Arguments, out: &mut dyn Write) -> Done {
    let (words, target) = match arguments.from(1) {
        [words @ .., last] if !words.is_empty() => (words, target(arguments, last)?),
        words => (words, Target::Folder(Path::new(""))),
    };
    let recursive = arguments.has(RECURSIVE);
    if recursive && matches!(target, Target::Output) {
        return Err(arguments.trouble("-r makes folders, which standard output cannot have"));
    }
    let bundles = bundles::<L>(arguments, words)?;
    let here = Here {
        force: arguments.has("--force"),
        times: !arguments.has("--no-times"),
        charset: arguments.charset(),
    };
    if matches!(target, Target::Output) {
        return write_files(&bundles, out);
    }
    let mut plans = Vec::new();
    for bundle in &bundles {
        let first = match &target {
            Target::Name(path) if bundles.len() == 1 => path.to_path_buf(),
            Target::Folder(folder) => own_name(bundle, folder, &here)?,
            _ => return Err(arguments.trouble("several files go into a folder that is there")),
        };
        plans.push(bundle.plan_here(&first, &here)?);
    }
    all_named_apart_here(bundles.iter().map(|bundle| bundle.items[0].name.as_slice()), here.charset)?;
    let (mut count, mut progress) = (Count::default(), Progress::new("got"));
    for (bundle, plan) in bundles.iter().zip(&plans) {
        bundle.write_here(plan, &here, &mut progress)?;
        count.add(bundle.count());
    }
    drop(progress);
    if recursive {
        writeln!(out, "got {}", count.words())?;
    }
    Ok(())
}

/// The place of a bundle in a folder, under its own name.
fn own_name(bundle: &Bundle, folder: &Path, here: &Here) -> Result<PathBuf, Failure> {
    let name = &bundle.items[0].name;
    Ok(folder.join(here.charset.file_name(name).ok_or_else(|| no_name(name, here.charset))?))
}
