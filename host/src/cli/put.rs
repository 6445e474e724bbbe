//! `put`: files and folders from here onto a disk, all of them or none, unless a safe one is cut off.

use std::ffi::{OsStr, OsString};
use std::io::Write;
use std::path::Path as HostPath;

use super::arguments::Arguments;
use super::edit::{Edit, Way};
use super::get::RECURSIVE;
use super::items::{all_named_apart, name_on_disk, Bundle, Count, Fields, Present};
use super::paths::Path;
use super::progress::Progress;
use super::{help, stamps, store, text, Done, Failure};
use crate::calls::Library;

/// What the options say of the new entries.
fn fields(arguments: &Arguments) -> Result<Fields, Failure> {
    let date = match arguments.has("--no-times") {
        true => Some(arguments.stamp()?),
        false => arguments.date()?,
    };
    let comment = arguments.text("--comment")?.unwrap_or_default();
    let (protection, charset) = (arguments.protection()?, arguments.charset());
    Ok(Fields { date, protection, comment, charset })
}

/// What is done about files that are there.
fn present(arguments: &Arguments) -> Result<Present, Failure> {
    if arguments.has("--force") && arguments.way() == Way::InPlace {
        let wrong = "--force removes a file before the new one is there, and a cut between would lose both";
        return Err(arguments.trouble(format!("{wrong}: --safe goes with --keep")));
    }
    if !arguments.has("--keep") {
        return Ok(if arguments.has("--force") { Present::Replace } else { Present::Refuse });
    }
    match help::NEW_ENTRY.iter().find(|option| arguments.has(option)) {
        Some(option) => Err(arguments.trouble(format!("--keep leaves what {option} would change"))),
        None => Ok(Present::Keep),
    }
}

/// A file or folder from here, under its own name or that of a path.
fn bundle(
    arguments: &Arguments,
    file: &OsStr,
    target: Option<&Path>,
    fields: &Fields,
) -> Result<Bundle, Failure> {
    if file == "-" {
        let stamp = fields.date.unwrap_or_else(stamps::now);
        let name =
            target.ok_or_else(|| arguments.trouble("standard input has no name: give --as PATH"))?.name();
        return Ok(Bundle::file(name.to_vec(), store::read(file)?, stamp, fields));
    }
    let name = match target {
        Some(target) => target.name().to_vec(),
        None => name_on_disk(file, fields.charset)
            .map_err(|wrong| arguments.trouble(format!("{}: {wrong}", text::show_os(file))))?,
    };
    Bundle::from_here(file, name, arguments.has(RECURSIVE), fields)
}

/// The files, and the word for the directory that they go into. Of several words the last is the directory.
fn sources(arguments: &Arguments) -> (&[OsString], Option<&OsStr>) {
    match arguments.from(1) {
        [files @ .., last] if !files.is_empty() => (files, Some(last)),
        files => (files, None),
    }
}

pub fn put<L: Library>(arguments: &Arguments, out: &mut dyn Write) -> Done {
    let (fields, present) = (fields(arguments)?, present(arguments)?);
    let (bundles, at) = match arguments.value("--as") {
        Some(word) => one_as(arguments, word, &fields)?,
        None => {
            let (files, directory) = sources(arguments);
            let at = directory.map_or(Ok(Path::root(fields.charset)), |word| arguments.path(word))?;
            let bundles = files.iter().map(|file| bundle(arguments, file, None, &fields));
            (bundles.collect::<Result<Vec<_>, _>>()?, at)
        }
    };
    all_named_apart(bundles.iter().map(|bundle| bundle.items[0].name.as_slice()), fields.charset)?;
    let mut progress = Progress::new("put");
    store::change(arguments.operand(0), arguments.way(), |edit: &mut Edit<L>| {
        let word = sources(arguments).1.filter(|_| !arguments.has("--as")).unwrap_or_default();
        let open = !word.is_empty() && !word.as_encoded_bytes().ends_with(b"/");
        if open && HostPath::new(word).exists() && at.is_directory(&mut edit.disk) {
            let word = text::show_os(word);
            return Err(
                arguments.trouble(format!("{word} is here and on the disk: the directory is {word}/"))
            );
        }
        if !arguments.has("--as") && !at.is_directory(&mut edit.disk) {
            let hint = "is no directory of the disk: several files go into one, and --as PATH gives a file another name";
            return Err(arguments.trouble(format!("{at} {hint}")));
        }
        bundles.iter().try_for_each(|bundle| bundle.store(edit, &at, present, &mut progress))
    })?;
    drop(progress);
    if arguments.has(RECURSIVE) {
        let mut count = Count::default();
        bundles.iter().for_each(|bundle| count.add(bundle.count()));
        writeln!(out, "put {}", count.words())?;
    }
    Ok(())
}

/// A single file, with the directory of the path that it goes to.
fn one_as(arguments: &Arguments, word: &[u8], fields: &Fields) -> Result<(Vec<Bundle>, Path), Failure> {
    let path =
        Path::parse(word, fields.charset).map_err(|wrong| arguments.trouble(format!("--as: {wrong}")))?;
    let ([file], Some(parent)) = (arguments.from(1), path.parent()) else {
        return Err(arguments.trouble("--as takes one FILE and the path of an entry"));
    };
    Ok((vec![bundle(arguments, file, Some(&path), fields)?], parent))
}
