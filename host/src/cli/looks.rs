//! The commands that look at a disk as a whole or at its entries.

use std::ffi::{OsStr, OsString};
use std::io::Write;

use super::arguments::Arguments;
use super::get::all_found;
use super::help::JSON;
use super::json::Json;
use super::paths::Path;
use super::store::{self, load};
use super::text::{self, Charset};
use super::walk::{self, Found};
use super::{refused, stamps, Done, Failure};
use crate::anodes::{Anodes, MOST_ANODE_BLOCKS};
use crate::calls::{Library, BLOCK, ROOT};
use crate::disk::{Disk, Entry, Error, Kind, Label, Summary};
use crate::model;

/// The path in an operand; the root if it is left out.
fn path(arguments: &Arguments, place: usize) -> Result<Path, Failure> {
    arguments.optional(place).map_or(Ok(Path::root(arguments.charset())), |word| arguments.path(word))
}

/// A value as a line for programs.
pub fn write_json(value: Json, out: &mut dyn Write) -> Done {
    Ok(writeln!(out, "{value}")?)
}

/// What is told of a disk.
struct About {
    summary: Summary,
    label: Label,
    anodes: Anodes,
}

fn about<L: Library>(name: &OsStr) -> Result<About, Failure> {
    store::look(name, |disk: &mut Disk<L>| {
        let told = disk.summary().and_then(|summary| Ok((summary, disk.label()?)));
        let (summary, label) = told.map_err(refused("its label"))?;
        Ok(About { summary, label, anodes: disk.anodes() })
    })
}

/// The protection bits of a disk, of which the lower eight have letters.
fn disk_protection(bits: u16) -> String {
    format!("{} ({bits})", protection(bits as u8))
}

/// How many anodes there are, for programs.
pub fn anode_fields(anodes: &Anodes) -> Vec<(&'static str, Json)> {
    vec![
        ("anode_blocks", anodes.blocks.into()),
        ("most_anode_blocks", MOST_ANODE_BLOCKS.into()),
        ("anodes", anodes.existing().into()),
        ("anodes_in_use", anodes.in_use.into()),
        ("anodes_free", anodes.free.into()),
        ("anodes_to_come", anodes.to_come().into()),
    ]
}

fn told_object(name: &OsStr, told: &About, charset: Charset) -> Json {
    let About { summary, label, anodes } = told;
    let mut fields = vec![
        ("disk", text::os(name).into()),
        ("name", charset.show(&label.name).into()),
        ("date_utc", stamps::iso(label.stamp).into()),
        ("protection", label.protection.into()),
        ("last_reserved", label.last_reserved.into()),
        ("blocks", summary.blocks.into()),
        ("bytes", (summary.blocks as usize * BLOCK).into()),
        ("free_blocks", summary.free.into()),
        ("files", summary.files.into()),
        ("directories", summary.directories.into()),
    ];
    fields.extend(anode_fields(anodes));
    Json::Object(fields)
}

fn write_told(name: &OsStr, told: &About, charset: Charset, out: &mut dyn Write) -> Done {
    let About { summary, label, anodes } = told;
    writeln!(out, "disk            {}", text::show_os(name))?;
    writeln!(out, "name            {}", charset.quoted(&label.name))?;
    writeln!(out, "date            {} UTC", stamps::show(label.stamp))?;
    writeln!(out, "protection      {}", disk_protection(label.protection))?;
    writeln!(out, "blocks          {}", summary.blocks)?;
    writeln!(out, "bytes           {}", summary.blocks as usize * BLOCK)?;
    writeln!(out, "last reserved   {}", label.last_reserved)?;
    writeln!(out, "free blocks     {}", summary.free)?;
    writeln!(out, "files           {}", summary.files)?;
    writeln!(out, "directories     {}", summary.directories)?;
    writeln!(out, "anode blocks    {} of {MOST_ANODE_BLOCKS}", anodes.blocks)?;
    writeln!(out, "anodes          {}", anodes.existing())?;
    writeln!(out, "anodes in use   {}", anodes.in_use)?;
    writeln!(out, "anodes free     {}", anodes.free)?;
    writeln!(out, "anodes to come  {}", anodes.to_come())?;
    Ok(())
}

/// A disk that cannot be told of is said among several others, and alone it is the failure of the command.
pub fn info<L: Library>(arguments: &Arguments, out: &mut dyn Write) -> Done {
    let (names, charset) = (arguments.from(0), arguments.charset());
    let (mut objects, mut status) = (Vec::new(), 0);
    for (place, name) in names.iter().enumerate() {
        let told = match about::<L>(name) {
            Err(failure) if names.len() == 1 => return Err(failure),
            told => told,
        };
        status = told.as_ref().map_or_else(Failure::status, |_| 0).max(status);
        let separator = if place > 0 { "\n" } else { "" };
        match (told, arguments.has(JSON)) {
            (Ok(told), true) => objects.push(told_object(name, &told, charset)),
            (Ok(told), false) => {
                write!(out, "{separator}")?;
                write_told(name, &told, charset, out)?;
            }
            (Err(failure), json) => {
                let message = failure.message().unwrap_or_default().to_string();
                match json {
                    true => objects
                        .push(Json::Object(vec![("disk", text::os(name).into()), ("error", message.into())])),
                    false => writeln!(out, "{separator}disk            {}\n{message}", text::show_os(name))?,
                }
            }
        }
    }
    if arguments.has(JSON) {
        write_json(Json::List(objects), out)?;
    }
    ended(status)
}

/// The end of a command over several disks, by the highest status.
fn ended(status: u8) -> Done {
    match status {
        0 => Ok(()),
        status => Err(Failure::Answered(status)),
    }
}

/// What an accepted disk may still be wrong in.
const NOT_COVERED: &str = "The bytes inside files are not checked: the disk holds nothing to check them by.";

/// What the check says of a disk.
struct Verdict {
    /// Nothing if the file cannot be read.
    number: Option<u32>,
    words: String,
    /// The exit status.
    status: u8,
    /// Where the fault is, if that was asked for.
    place: Option<String>,
}

fn verdict<L: Library>(name: &OsStr, ask_where: bool, charset: Charset) -> Result<Verdict, Failure> {
    let mut disk = load::<L>(name)?;
    let Err(error) = disk.check() else {
        return Ok(Verdict { number: Some(0), words: "accepted".into(), status: 0, place: None });
    };
    let place = ask_where.then(|| located(disk.image(), error, charset));
    let status = refused("")(error).status();
    Ok(Verdict { number: Some(error.number()), words: error.words().into(), status, place })
}

/// Where a fault is, by the model, which must have found the same one.
fn located(image: &[u8], error: Error, charset: Charset) -> String {
    let show =
        |names: &[Vec<u8>]| names.iter().fold(Path::root(charset), |path, name| path.join(name)).to_string();
    match model::locate(image, &show) {
        Some((number, place)) if number == error.number() => place,
        Some((number, _)) => {
            format!("not known: the search for the place finds {number} and not {}", error.number())
        }
        None => String::from("not known: the search for the place finds no fault"),
    }
}

/// What is said of a place: it is found by code that is tested and not proved.
const NOT_PROVED: &str =
    "The place is found by a model of the rules that is tested and not proved; the number is proved.";

pub fn check<L: Library>(arguments: &Arguments, out: &mut dyn Write) -> Done {
    let names = arguments.from(0);
    let mut verdicts = Vec::new();
    for name in names {
        let verdict = match verdict::<L>(name, arguments.has("--where"), arguments.charset()) {
            Err(failure) if names.len() > 1 => {
                let words = failure.message().unwrap_or_default().to_string();
                Verdict { number: None, words, status: failure.status(), place: None }
            }
            verdict => verdict?,
        };
        verdicts.push((name, verdict));
    }
    let status = verdicts.iter().map(|(_, verdict)| verdict.status).max().unwrap_or(0);
    match arguments.has(JSON) {
        true => write_json(
            Json::List(verdicts.into_iter().map(|(name, verdict)| judged(name, verdict)).collect()),
            out,
        )?,
        false => write_verdicts(&verdicts, out)?,
    }
    ended(status)
}

fn judged(name: &OsStr, verdict: Verdict) -> Json {
    Json::Object(vec![
        ("disk", text::os(name).into()),
        ("number", verdict.number.into()),
        ("words", verdict.words.into()),
        ("where_not_proved", verdict.place.into()),
    ])
}

fn write_verdicts(verdicts: &[(&OsString, Verdict)], out: &mut dyn Write) -> Done {
    for (name, Verdict { number, words, place, .. }) in verdicts {
        match number {
            None => writeln!(out, "{words}")?,
            Some(number) if verdicts.len() > 1 => {
                writeln!(out, "{}: {number}: {words}", text::show_os(name))?
            }
            Some(number) => writeln!(out, "{number}: {words}")?,
        }
        if let Some(place) = place {
            writeln!(out, "  {place}")?;
        }
    }
    if verdicts.iter().any(|(_, verdict)| verdict.place.is_some()) {
        writeln!(out, "{NOT_PROVED}")?;
    }
    if verdicts.iter().any(|(_, verdict)| verdict.number == Some(0)) {
        writeln!(out, "{NOT_COVERED}")?;
    }
    Ok(())
}

/// The protection bits as letters. The lowest four forbid what their letter allows.
pub fn protection(bits: u8) -> String {
    let letters = "hsparwed".chars().zip((0..8).rev());
    letters.map(|(letter, bit)| if ((bits ^ 0x0F) >> bit) & 1 == 1 { letter } else { '-' }).collect()
}

pub fn kind(entry: &Entry) -> &'static str {
    match entry.kind {
        Kind::File => "file",
        Kind::Directory => "dir",
    }
}

/// Type, size, protection, date and time, name and comment of an entry.
fn line(entry: &Entry, name: &str, charset: Charset) -> String {
    let size = match entry.kind {
        Kind::File => entry.size.to_string(),
        Kind::Directory => String::from("-"),
    };
    let (bits, date) = (protection(entry.protection), stamps::show(entry.stamp));
    let comment = match entry.comment.is_empty() {
        true => String::new(),
        false => format!("  \"{}\"", charset.show(&entry.comment)),
    };
    format!("{:<4} {size:>10}  {bits}  {date} UTC  {name}{comment}", kind(entry))
}

/// An entry and where it is, for programs.
fn object(found: &Found, charset: Charset) -> Json {
    let Found { path, entry, .. } = found;
    let size = (entry.kind == Kind::File).then_some(entry.size);
    Json::Object(vec![
        ("path", path.text().into()),
        ("name", charset.show(&entry.name).into()),
        ("type", kind(entry).into()),
        ("size", size.into()),
        ("protection", protection(entry.protection).into()),
        ("date_utc", stamps::iso(entry.stamp).into()),
        ("day", entry.stamp.day.into()),
        ("minute", entry.stamp.minute.into()),
        ("tick", entry.stamp.tick.into()),
        ("comment", charset.show(&entry.comment).into()),
    ])
}

/// All entries that were found, for programs.
fn write_objects(arguments: &Arguments, all: &[Found], out: &mut dyn Write) -> Done {
    let entries = all.iter().map(|found| object(found, arguments.charset())).collect();
    let disk = text::os(arguments.operand(0));
    write_json(Json::Object(vec![("disk", disk.into()), ("entries", Json::List(entries))]), out)
}

/// What `ls` shows: the entries of one directory, or those that the paths stand for. Says also whether their whole paths
/// are to be shown.
fn listed<L: Library>(arguments: &Arguments) -> Result<(Vec<Found>, bool), Failure> {
    store::look(arguments.operand(0), |disk: &mut Disk<L>| {
        let root = Path::root(arguments.charset());
        let found = match arguments.from(1) {
            [] => return Ok((walk::entries(disk, &root, ROOT)?, false)),
            [word] => arguments.pattern(word)?.found(disk)?,
            words => Some(all_found(arguments, disk, words)?),
        };
        let Some(found) = found else {
            return Ok((walk::entries(disk, &root, ROOT)?, false));
        };
        let several = found.len() > 1;
        match found.first().filter(|first| !several && first.entry.kind == Kind::Directory) {
            Some(one) => Ok((walk::entries(disk, &one.path, one.entry.anode)?, false)),
            None => Ok((found, several)),
        }
    })
}

pub fn ls<L: Library>(arguments: &Arguments, out: &mut dyn Write) -> Done {
    let (all, paths) = listed::<L>(arguments)?;
    if arguments.has(JSON) {
        return write_objects(arguments, &all, out);
    }
    for found in all {
        let name = match paths {
            true => found.path.to_string(),
            false => arguments.charset().quoted(&found.entry.name),
        };
        writeln!(out, "{}", line(&found.entry, &name, arguments.charset()))?;
    }
    Ok(())
}

pub fn tree<L: Library>(arguments: &Arguments, out: &mut dyn Write) -> Done {
    let path = path(arguments, 1)?;
    let all = store::look(arguments.operand(0), |disk: &mut Disk<L>| walk::below(disk, &path))?;
    if arguments.has(JSON) {
        return write_objects(arguments, &all, out);
    }
    writeln!(out, "{path}")?;
    for found in all {
        let indent = 2 * (found.path.depth() - path.depth());
        let name = arguments.charset().quoted(found.path.name());
        match found.entry.kind {
            Kind::File => writeln!(out, "{:indent$}{name}  {}", "", found.entry.size)?,
            Kind::Directory => writeln!(out, "{:indent$}{name}/", "")?,
        }
    }
    Ok(())
}

#[cfg(test)]
mod tests {
    use super::*;

    #[test]
    fn protection_letters() {
        assert_eq!([0, 0x0F, 0xF0, 1].map(protection), ["----rwed", "--------", "hsparwed", "----rwe-"]);
        assert_eq!(disk_protection(0x0101), "----rwe- (257)");
    }
}
