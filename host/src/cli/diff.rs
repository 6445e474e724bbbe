//! `diff`: how two disks differ.

use std::io::Write;

use super::arguments::Arguments;
use super::help::JSON;
use super::json::Json;
use super::looks::{kind, protection, write_json};
use super::text::{self, Charset};
use super::walk::{Found, Places};
use super::{stamps, store, Done, Failure};
use crate::calls::Library;
use crate::differences::{
    Bytes, Comparer, Difference, Refused, Which, COMMENT, NAME, PROTECTION, SIZE, STAMPS, TYPE,
};
use crate::disk::{Disk, Entry, Kind};

/// As the program diff does, it ends with 0 where the disks are the same, with 1 where they differ, and with 2 after any
/// trouble.
pub fn diff<L: Library + Comparer>(arguments: &Arguments, out: &mut dyn Write) -> Done {
    let differences = Differences::of::<L>(arguments).map_err(trouble)?;
    match (write(arguments, &differences, out), differences.all.is_empty()) {
        // They differ, even if nobody reads all of it.
        (Ok(()) | Err(Failure::Answered(_)), false) => Err(Failure::Answered(1)),
        (written, _) => written,
    }
}

/// Says all that differs. What cannot be written is seen here, before the status is settled.
fn write(arguments: &Arguments, differences: &Differences, out: &mut dyn Write) -> Done {
    match arguments.has(JSON) {
        true => write_json(object(arguments, differences)?, out)?,
        false => {
            for line in differences.lines() {
                writeln!(out, "{}", line?.words(arguments))?;
            }
        }
    }
    Ok(out.flush()?)
}

/// Whatever a command failed by, as trouble.
fn trouble(failure: Failure) -> Failure {
    match failure {
        Failure::Refused(message) | Failure::Damaged(message) => Failure::Trouble(message),
        other => other,
    }
}

/// The differences of two disks, and where their entries are.
struct Differences {
    all: Vec<Difference>,
    first: Places,
    second: Places,
}

impl Differences {
    fn of<L: Library + Comparer>(arguments: &Arguments) -> Result<Self, Failure> {
        let names = [arguments.operand(0), arguments.operand(1)];
        if names.iter().all(|name| *name == "-") {
            return Err(arguments.trouble("only one of the disks can be standard input"));
        }
        let [mut first, mut second] = [store::load::<L>(names[0])?, store::load::<L>(names[1])?];
        let all = first.differences(&mut second).map_err(|Refused { disk, error }| match disk {
            Which::First => store::refused_disk(names[0])(error),
            Which::Second => store::refused_disk(names[1])(error),
        })?;
        let charset = arguments.charset();
        let places = |disk: &mut Disk<L>, name| match all.is_empty() {
            true => Ok(Places::none(charset)),
            false => Places::of(disk, charset).map_err(|failure| failure.on(name)),
        };
        let (first, second) = (places(&mut first, names[0])?, places(&mut second, names[1])?);
        Ok(Differences { all, first, second })
    }

    fn lines(&self) -> impl Iterator<Item = Result<Line, Failure>> + '_ {
        self.all.iter().map(|difference| match *difference {
            Difference::OnlyFirst { place } => Ok(Line::Only(Which::First, self.first.found(place)?)),
            Difference::OnlySecond { place } => Ok(Line::Only(Which::Second, self.second.found(place)?)),
            Difference::Both { first, second, fields, bytes } => {
                let (one, other) = (self.first.found(first)?, self.second.found(second)?.entry);
                Ok(Line::Both { one, other, fields, bytes })
            }
        })
    }
}

/// A difference with its entries.
enum Line {
    Only(Which, Found),
    /// In both, with the path of the first.
    Both {
        one: Found,
        other: Entry,
        fields: u32,
        bytes: Option<Bytes>,
    },
}

impl Line {
    fn words(&self, arguments: &Arguments) -> String {
        match self {
            Line::Only(which, found) => format!("only in {}: {}", disk(arguments, *which), found.path),
            Line::Both { one, other, fields, bytes } => {
                let parts = parts(&one.entry, other, *fields, *bytes, arguments.charset());
                format!("{}: {}", one.path, parts.join("; "))
            }
        }
    }
}

/// The name of one of the disks.
fn disk(arguments: &Arguments, which: Which) -> String {
    match which {
        Which::First => text::show_os(arguments.operand(0)),
        Which::Second => text::show_os(arguments.operand(1)),
    }
}

/// What an entry is, in a word.
fn word(entry: &Entry) -> String {
    match entry.kind {
        Kind::File => String::from("file"),
        Kind::Directory => String::from("directory"),
    }
}

/// What differs, with the values of both: type, size, bytes, name, date, protection, comment.
fn parts(one: &Entry, other: &Entry, fields: u32, bytes: Option<Bytes>, charset: Charset) -> Vec<String> {
    let part = |field: u32, word: &str, value: &dyn Fn(&Entry) -> String| {
        (fields & field != 0).then(|| format!("{word}{}, {}", value(one), value(other)))
    };
    let in_quotes = |bytes: &[u8]| format!("\"{}\"", charset.show(bytes));
    let all = [
        part(TYPE, "", &word),
        part(SIZE, "size ", &|entry| entry.size.to_string()),
        bytes.map(|bytes| match bytes {
            Bytes { first, many: 1 } => format!("1 byte differs, byte {first}"),
            Bytes { first, many } => format!("{many} bytes differ from byte {first}"),
        }),
        part(NAME, "name ", &|entry| in_quotes(&entry.name)),
        part(STAMPS, "date ", &|entry| format!("{} UTC", stamps::show(entry.stamp).trim_end())),
        part(PROTECTION, "protection ", &|entry| protection(entry.protection)),
        part(COMMENT, "comment ", &|entry| in_quotes(&entry.comment)),
    ];
    all.into_iter().flatten().collect()
}

/// All that differs, for programs.
fn object(arguments: &Arguments, differences: &Differences) -> Result<Json, Failure> {
    let lines = differences.lines().map(|line| line.map(|line| difference(&line, arguments.charset())));
    Ok(Json::Object(vec![
        ("first", text::os(arguments.operand(0)).into()),
        ("second", text::os(arguments.operand(1)).into()),
        ("differences", Json::List(lines.collect::<Result<_, _>>()?)),
    ]))
}

/// A difference for programs; of an entry that both have, with both values of what differs.
fn difference(line: &Line, charset: Charset) -> Json {
    let (one, other, fields, bytes) = match line {
        Line::Only(which, found) => {
            let only = if *which == Which::First { "first" } else { "second" };
            return Json::Object(vec![("path", found.path.text().into()), ("in", only.into())]);
        }
        Line::Both { one, other, fields, bytes } => (one, other, *fields, *bytes),
    };
    type Value<'a> = &'a dyn Fn(&Entry) -> Json;
    let values: [(u32, &'static str, Value); 9] = [
        (TYPE, "type", &|entry| kind(entry).into()),
        (SIZE, "size", &|entry| entry.size.into()),
        (NAME, "name", &|entry| charset.show(&entry.name).into()),
        (STAMPS, "date_utc", &|entry| stamps::iso(entry.stamp).into()),
        (STAMPS, "day", &|entry| entry.stamp.day.into()),
        (STAMPS, "minute", &|entry| entry.stamp.minute.into()),
        (STAMPS, "tick", &|entry| entry.stamp.tick.into()),
        (PROTECTION, "protection", &|entry| protection(entry.protection).into()),
        (COMMENT, "comment", &|entry| charset.show(&entry.comment).into()),
    ];
    let mut object = vec![("path", one.path.text().into()), ("in", "both".into())];
    for (_, name, value) in values.iter().filter(|(field, ..)| fields & field != 0) {
        object.push((name, Json::List(vec![value(&one.entry), value(other)])));
    }
    if let Some(Bytes { first, many }) = bytes {
        object.extend([("first_byte", first.into()), ("bytes", many.into())]);
    }
    Json::Object(object)
}
