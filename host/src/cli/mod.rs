//! The command line `pfs`, over any [`Library`]. It knows nothing of the format: names are found by calls, and
//! all that is told of a disk comes from the calls' answers and tables. Where a fault is comes from the model.
//!
//! * `arguments`, `help`, `manual`: the words of a command line, and what is said about them.
//! * `looks`, `get`, `put`, `change`, `map`, `report`, `bitmap`, `diff`: the commands.
//! * `settings`: settings files, the one thing that is no disk.
//! * `items`: files and directories on their way from one place to another.
//! * `edit`: a disk under a command that changes it, by safe changes or not.
//! * `facts`: refusals with what explains them.
//! * `store`: disk files, replaced as a whole or not at all, or written in place by safe changes.
//! * `paths`, `patterns`, `walk`: from names to entries, and all entries of a disk.
//! * `stamps`, `text`, `json`: dates and names as people write them, and values for programs.
//! * `drawing`, `svg`: who owns each block, as text and as a picture.
//! * `progress`: how far a long command has come.

mod arguments;
mod bitmap;
mod change;
mod diff;
mod drawing;
mod edit;
mod facts;
mod get;
mod help;
mod items;
mod json;
mod looks;
mod manual;
mod map;
mod paths;
mod patterns;
mod progress;
mod put;
mod report;
mod settings;
mod stamps;
mod store;
mod svg;
mod text;
mod walk;

use std::ffi::{OsStr, OsString};
use std::fmt::Display;
use std::io::{self, Write};

use crate::calls::Library;
use crate::differences::Comparer;
use crate::refusals::Error;
use crate::settings::Converter;
use arguments::Arguments;

/// Why a command was not done.
enum Failure {
    /// The library refused; the exit status is 1.
    Refused(String),
    /// Bad usage, or a file that cannot be read or written; the exit status is 2.
    Trouble(String),
    /// The disk is damaged; the exit status is 3.
    Damaged(String),
    /// All was said already; this is the exit status.
    Answered(u8),
}

type Done = Result<(), Failure>;

impl Failure {
    fn status(&self) -> u8 {
        match self {
            Failure::Refused(_) => 1,
            Failure::Trouble(_) => 2,
            Failure::Damaged(_) => 3,
            Failure::Answered(status) => *status,
        }
    }

    /// What is said of it, if it was not said already.
    fn message(&self) -> Option<&str> {
        match self {
            Failure::Refused(message) | Failure::Trouble(message) | Failure::Damaged(message) => {
                Some(message)
            }
            Failure::Answered(_) => None,
        }
    }

    /// A failure that names the disk file too, where it is about what is on it.
    fn on(self, disk: &OsStr) -> Failure {
        match self {
            Failure::Refused(message) => Failure::Refused(format!("{}: {message}", text::show_os(disk))),
            Failure::Damaged(message) => Failure::Damaged(format!("{}: {message}", text::show_os(disk))),
            other => other,
        }
    }
}

/// What could not be written was the output. If nobody reads it any more, there is nothing to say.
impl From<io::Error> for Failure {
    fn from(error: io::Error) -> Self {
        match error.kind() {
            io::ErrorKind::BrokenPipe => Failure::Answered(0),
            _ => Failure::Trouble(format!("standard output: {error}")),
        }
    }
}

/// Turns a refusal into a failure that says what it was about.
fn refused(about: impl Display) -> impl FnOnce(Error) -> Failure {
    move |error| refused_with(about, error, "")
}

/// The same, with facts behind it.
fn refused_with(about: impl Display, error: Error, facts: &str) -> Failure {
    let message = format!("{about}: {error}{facts}");
    match error.is_damage() {
        true => Failure::Damaged(message),
        false => Failure::Refused(message),
    }
}

/// Runs a command line (without the program's name) and answers its exit status: 0 done, 1 refused, 2 bad usage
/// or a file that cannot be read or written, 3 a damaged disk. Of `diff` 1 says that the disks differ, and 2 any trouble.
pub fn run<L: Library + Converter + Comparer>(
    words: &[OsString],
    out: &mut dyn Write,
    errors: &mut dyn Write,
) -> u8 {
    let done = command::<L>(words, out).and_then(|()| Ok(out.flush()?));
    let Err(failure) = done else {
        return 0;
    };
    // What was said before the failure comes first; if not even the error can be told, the status still can.
    let _ = out.flush();
    if let Some(message) = failure.message() {
        let _ = writeln!(errors, "pfs: {message}");
    }
    failure.status()
}

fn command<L: Library + Converter + Comparer>(words: &[OsString], out: &mut dyn Write) -> Done {
    let Some((first, rest)) = words.split_first() else {
        return Err(Failure::Trouble("no command; see pfs --help".into()));
    };
    match (&*first.to_string_lossy(), rest) {
        ("--version" | "-V", _) => return Ok(writeln!(out, "pfs {}", env!("CARGO_PKG_VERSION"))?),
        ("--help" | "-h", _) | ("help", []) => return Ok(out.write_all(help::whole().as_bytes())?),
        ("help", [name, ..]) => return Ok(out.write_all(help::one(syntax(name)?).as_bytes())?),
        _ => {}
    }
    // Before the command's name it means what it means behind it.
    let (first, rest) = match rest.split_first() {
        Some((name, others)) if first == help::SAFE => (name, [&[first.clone()][..], others].concat()),
        _ => (first, rest.to_vec()),
    };
    let syntax = syntax(first)?;
    match Arguments::parse(syntax, &rest)? {
        Some(arguments) => dispatch::<L>(syntax.name, &arguments, out),
        None => Ok(out.write_all(help::one(syntax).as_bytes())?),
    }
}

/// What the command of this name takes.
fn syntax(name: &OsStr) -> Result<&'static help::Syntax, Failure> {
    let found = help::COMMANDS.iter().find(|syntax| name == syntax.name);
    found.ok_or_else(|| Failure::Trouble(format!("{}: no such command; see pfs --help", text::show_os(name))))
}

fn dispatch<L: Library + Converter + Comparer>(
    name: &str,
    arguments: &Arguments,
    out: &mut dyn Write,
) -> Done {
    match name {
        "info" => looks::info::<L>(arguments, out),
        "check" => looks::check::<L>(arguments, out),
        "ls" => looks::ls::<L>(arguments, out),
        "tree" => looks::tree::<L>(arguments, out),
        "cat" => get::cat::<L>(arguments, out),
        "get" => get::get::<L>(arguments, out),
        "put" => put::put::<L>(arguments, out),
        "mkdir" => change::mkdir::<L>(arguments),
        "rm" => change::rm::<L>(arguments, out),
        "mv" => change::mv::<L>(arguments, out),
        "cp" => change::cp::<L>(arguments, out),
        "resize" => change::resize::<L>(arguments),
        "format" => change::format::<L>(arguments),
        "df" => map::df::<L>(arguments, out),
        "report" => report::report::<L>(arguments, out),
        "bitmap" => bitmap::bitmap::<L>(arguments, out),
        "diff" => diff::diff::<L>(arguments, out),
        "settings" => settings::settings_file::<L>(arguments, out),
        "man" => manual::man(out),
        "completion" => manual::completion(arguments, out),
        _ => map::map::<L>(arguments, out),
    }
}
