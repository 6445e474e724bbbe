//! `report`: the totals of a shift, over as many disks as are named.

use std::ffi::OsString;
use std::io::{self, IsTerminal, Write};

use super::arguments::Arguments;
use super::{store, text, Done, Failure};
use crate::calls::Library;
use crate::disk::Disk;
use crate::refusals::Error;
use crate::report::{Figures, Report};

/// What became of a disk.
enum Line {
    Counted(Figures),
    /// Refused by the check, or 31.
    Refused(Error),
    /// The file cannot be read, and why.
    Unread(String),
}

/// From so many disks on, a terminal is told how far the report is.
const MANY: usize = 20;

pub fn report<L: Library>(arguments: &Arguments, out: &mut dyn Write) -> Done {
    let mut report = Report::new();
    let lines = count::<L>(arguments.from(0), &mut report);
    match arguments.has("--json") {
        true => writeln!(out, "{}", json(&lines, &report))?,
        false => out.write_all(table(&lines, &report).as_bytes())?,
    }
    let unread: Vec<&str> = lines.iter().filter_map(|(_, line)| line.trouble()).collect();
    if !unread.is_empty() {
        return Err(Failure::Trouble(unread.join("; ")));
    }
    match lines.iter().any(|(_, line)| line.is_untaken()) {
        true => Err(Failure::Answered(1)),
        false => Ok(()),
    }
}

/// Feeds disk after disk to the report. A terminal that waits for many of them is told how far it is.
fn count<L: Library>(names: &[OsString], report: &mut Report) -> Vec<(String, Line)> {
    let told = names.len() >= MANY && io::stderr().is_terminal();
    let mut lines = Vec::new();
    for (place, name) in names.iter().enumerate() {
        if told {
            // What cannot be told there is not needed.
            let _ = write!(io::stderr(), "\r{place} of {} disks", names.len());
        }
        let line = match store::load::<L>(name) {
            Ok(disk) => feed(disk, report),
            Err(Failure::Refused(message) | Failure::Trouble(message) | Failure::Damaged(message)) => {
                Line::Unread(message)
            }
            Err(Failure::Answered(_)) => Line::Unread(text::show_os(name)),
        };
        lines.push((text::show_os(name), line));
    }
    if told {
        let _ = write!(io::stderr(), "\r\x1b[K");
    }
    lines
}

fn feed<L: Library>(mut disk: Disk<L>, report: &mut Report) -> Line {
    match disk.report(report) {
        Ok(figures) => Line::Counted(figures),
        Err(error) => Line::Refused(error),
    }
}

impl Line {
    /// What is said at the end of a file that cannot be read.
    fn trouble(&self) -> Option<&str> {
        match self {
            Line::Unread(message) => Some(message),
            _ => None,
        }
    }

    /// The report took no further disk.
    fn is_untaken(&self) -> bool {
        matches!(self, Line::Refused(error) if error.number() == 31)
    }
}

const COLUMNS: [&str; 5] = ["free", "files", "dirs", "longest", "split"];

/// A name, then five cells.
fn row(name: &str, width: usize, cells: [String; 5]) -> String {
    let cells: String = cells.iter().map(|cell| format!(" {cell:>9}")).collect();
    format!("{name:<width$}{cells}\n")
}

/// The report for people: a line a disk, the sums below them, how many disks had each answer, and the mean.
fn table(lines: &[(String, Line)], report: &Report) -> String {
    let longest = lines.iter().map(|(name, _)| name.chars().count()).max();
    let width = longest.unwrap_or(0).clamp(4, 40);
    let mut text = row("disk", width, COLUMNS.map(String::from));
    for (name, line) in lines {
        text += &match line {
            Line::Counted(figures) => row(name, width, figures.numbers().map(|number| number.to_string())),
            Line::Refused(error) => format!("{name:<width$} {error}\n"),
            Line::Unread(_) => format!("{name:<width$} cannot be read\n"),
        };
    }
    text += &row("all", width, report.sums().numbers().map(|number| number.to_string()));
    let refused: u64 = report.refused().map(|(_, count)| count).sum();
    text += &format!("\naccepted {:>9}\nrefused  {refused:>9}\n", report.accepted());
    for (number, count) in report.refused() {
        text += &format!("  under {number:<2}{count:>8}\n");
    }
    let (bytes, files) = report.mean();
    text + &format!("mean file size: {bytes} bytes in {files} files\n")
}

/// A text as JSON has it.
fn quoted(text: &str) -> String {
    let escaped = text.chars().map(|letter| match letter {
        '"' | '\\' => format!("\\{letter}"),
        '\0'..='\x1f' => format!("\\u{:04x}", u32::from(letter)),
        _ => letter.to_string(),
    });
    format!("\"{}\"", escaped.collect::<String>())
}

/// Five numbers as fields of an object.
fn fields(figures: &Figures) -> String {
    let names = ["free", "files", "directories", "longest_free", "split_files"];
    let fields = names.iter().zip(figures.numbers()).map(|(name, number)| format!("\"{name}\": {number}"));
    fields.collect::<Vec<String>>().join(", ")
}

/// The report for programs.
fn json(lines: &[(String, Line)], report: &Report) -> String {
    let disks = lines.iter().map(|(name, line)| {
        let rest = match line {
            Line::Counted(figures) => format!("\"answer\": 0, {}", fields(figures)),
            Line::Refused(error) => {
                format!("\"answer\": {}, \"words\": {}", error.number(), quoted(error.words()))
            }
            Line::Unread(message) => format!("\"unread\": {}", quoted(message)),
        };
        format!("{{\"disk\": {}, {rest}}}", quoted(name))
    });
    let disks = disks.collect::<Vec<String>>().join(", ");
    let refused = report.refused().map(|(number, count)| format!("\"{number}\": {count}"));
    let refused = refused.collect::<Vec<String>>().join(", ");
    let (bytes, files) = report.mean();
    format!(
        "{{\"disks\": [{disks}], \"accepted\": {}, \"refused\": {{{refused}}}, {}, \"mean\": {{\"bytes\": {bytes}, \"files\": {files}}}}}",
        report.accepted(),
        fields(&report.sums()),
    )
}
