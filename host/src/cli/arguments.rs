//! The words of a command line, sorted into operands and options.

use std::ffi::{OsStr, OsString};
use std::str::FromStr;

use super::edit::Way;
use super::help::{Syntax, SAFE};
use super::paths::Path;
use super::patterns::Pattern;
use super::text::{self, Charset};
use super::{stamps, Failure};
use crate::calls::Stamp;

/// The operands and options of one command.
pub struct Arguments {
    command: &'static str,
    operands: Vec<OsString>,
    options: Vec<(&'static str, Vec<u8>)>,
}

/// The flag of every command that says how names and comments are read.
pub const LATIN1: &str = "--latin1";

impl Arguments {
    /// Sorts the words after a command's name; nothing if they ask for help.
    pub fn parse(syntax: &'static Syntax, words: &[OsString]) -> Result<Option<Self>, Failure> {
        let mut found = Arguments { command: syntax.name, operands: Vec::new(), options: Vec::new() };
        let mut words = words.iter();
        while let Some(word) = words.next() {
            let bytes = word.as_encoded_bytes();
            if bytes == b"--" {
                found.operands.extend(words.by_ref().cloned());
            } else if bytes == b"--help" || bytes == b"-h" {
                return Ok(None);
            } else if bytes.len() > 1 && bytes.starts_with(b"-") {
                found.take_option(syntax, word, &mut words)?;
            } else {
                found.operands.push(word.clone());
            }
        }
        if !syntax.takes(found.operands.len()) {
            return Err(Failure::Trouble(format!("usage: {}", syntax.usage())));
        }
        Ok(Some(found))
    }

    /// An option, with its value after `=` or in the next word.
    fn take_option<'a>(
        &mut self,
        syntax: &'static Syntax,
        word: &OsString,
        rest: &mut impl Iterator<Item = &'a OsString>,
    ) -> Result<(), Failure> {
        let bytes = word.as_encoded_bytes();
        let mut flags = syntax.flags.iter().chain(&[LATIN1]);
        if let Some(flag) = flags.find(|flag| flag.as_bytes() == bytes) {
            self.options.push((flag, Vec::new()));
            return Ok(());
        }
        let (name, value) = match bytes.iter().position(|&byte| byte == b'=') {
            Some(place) => (&bytes[..place], Some(&bytes[place + 1..])),
            None => (bytes, None),
        };
        let Some(option) = syntax.options.iter().find(|option| option.as_bytes() == name) else {
            return Err(self.trouble(format!("{}: no such option", text::show_os(word))));
        };
        match value.or_else(|| rest.next().map(|value| value.as_encoded_bytes())) {
            Some(value) => self.options.push((option, value.to_vec())),
            None => return Err(self.trouble(format!("{option}: no value"))),
        }
        Ok(())
    }

    /// Bad usage of this command.
    pub fn trouble(&self, message: impl AsRef<str>) -> Failure {
        let command = self.command;
        Failure::Trouble(format!("{command}: {}; see pfs {command} --help", message.as_ref()))
    }

    /// An operand that must be there.
    pub fn operand(&self, place: usize) -> &OsStr {
        self.optional(place).unwrap_or_default()
    }

    /// An operand that may be left out.
    pub fn optional(&self, place: usize) -> Option<&OsStr> {
        self.operands.get(place).map(OsString::as_os_str)
    }

    /// The operands from a place on.
    pub fn from(&self, place: usize) -> &[OsString] {
        self.operands.get(place..).unwrap_or_default()
    }

    pub fn has(&self, option: &str) -> bool {
        self.value(option).is_some()
    }

    /// The value of an option; the last one counts.
    pub fn value(&self, option: &str) -> Option<&[u8]> {
        self.options.iter().rev().find(|(name, _)| *name == option).map(|(_, value)| value.as_slice())
    }

    /// How changes come to the disk.
    pub fn way(&self) -> Way {
        match self.has(SAFE) {
            true => Way::InPlace,
            false => Way::Replaced,
        }
    }

    /// How names and comments are read.
    pub fn charset(&self) -> Charset {
        match self.has(LATIN1) {
            true => Charset::Latin1,
            false => Charset::Utf8,
        }
    }

    /// A path in a word.
    pub fn path(&self, word: &OsStr) -> Result<Path, Failure> {
        let path = Path::parse(word.as_encoded_bytes(), self.charset());
        path.map_err(|wrong| self.trouble(format!("{}: {wrong}", text::show_os(word))))
    }

    /// A path in a word, perhaps with wildcards.
    pub fn pattern(&self, word: &OsStr) -> Result<Pattern, Failure> {
        let pattern = Pattern::parse(word.as_encoded_bytes(), self.charset());
        pattern.map_err(|wrong| self.trouble(format!("{}: {wrong}", text::show_os(word))))
    }

    /// The bytes of an option that is a text with escapes.
    pub fn text(&self, option: &str) -> Result<Option<Vec<u8>>, Failure> {
        let value = self.value(option).map(|value| self.charset().bytes(value)).transpose();
        value.map_err(|wrong| self.trouble(format!("{option}: {wrong}")))
    }

    /// An option that is a number.
    pub fn number<N: FromStr>(&self, option: &str, default: N) -> Result<N, Failure> {
        self.value(option).map_or(Ok(default), |value| self.parsed(option, value))
    }

    /// An operand that is a number of bytes, of 1,024 bytes with a `K` behind it, or of 1,048,576 with an `M`.
    pub fn size(&self, place: usize) -> Result<u64, Failure> {
        let word = self.operand(place);
        let (digits, unit) = match word.as_encoded_bytes() {
            [digits @ .., b'K' | b'k'] => (digits, 1 << 10),
            [digits @ .., b'M' | b'm'] => (digits, 1 << 20),
            digits => (digits, 1),
        };
        let number: u64 = self.parsed(&text::show_os(word), digits)?;
        number.checked_mul(unit).ok_or_else(|| self.trouble(format!("{}: too large", text::show_os(word))))
    }

    /// The option `--protection`: a number, or the letters of `ls`.
    fn bits(&self, most: u16) -> Result<u16, Failure> {
        let Some(value) = self.value("--protection") else {
            return Ok(0);
        };
        let number = str::from_utf8(value).ok().and_then(|value| value.parse().ok());
        let bits = number.or_else(|| letters(value)).filter(|&bits| bits <= most);
        bits.ok_or_else(|| {
            self.trouble(format!("--protection: not a number up to {most}, nor letters of hsparwed"))
        })
    }

    /// The protection bits of an entry.
    pub fn protection(&self) -> Result<u8, Failure> {
        self.bits(255).map(|bits| bits as u8)
    }

    /// The protection bits of a disk.
    pub fn disk_protection(&self) -> Result<u16, Failure> {
        self.bits(u16::MAX)
    }

    fn parsed<N: FromStr>(&self, what: &str, word: &[u8]) -> Result<N, Failure> {
        let number = str::from_utf8(word).ok().and_then(|word| word.parse().ok());
        number.ok_or_else(|| self.trouble(format!("{what}: not a number that fits")))
    }

    /// The option `--date`.
    pub fn date(&self) -> Result<Option<Stamp>, Failure> {
        let Some(value) = self.value("--date") else {
            return Ok(None);
        };
        let stamp = str::from_utf8(value).ok().and_then(stamps::parse);
        let wrong = || self.trouble("--date: not a date from 1978-01-01 to 2157-06-06");
        stamp.map(Some).ok_or_else(wrong)
    }

    /// The option `--date`, or the clock.
    pub fn stamp(&self) -> Result<Stamp, Failure> {
        Ok(self.date()?.unwrap_or_else(stamps::now))
    }
}

/// The protection bits that some letters stand for: each letter that is there allows or sets what it stands for, as `ls`
/// shows them.
fn letters(text: &[u8]) -> Option<u16> {
    let mut bits = 0x0F;
    for letter in text.iter().filter(|&&letter| letter != b'-') {
        let place = b"dewrapsh".iter().position(|other| other == letter)?;
        bits ^= 1 << place;
    }
    let repeated = text.iter().enumerate().any(|(at, letter)| *letter != b'-' && text[..at].contains(letter));
    (!text.is_empty() && !repeated).then_some(bits)
}

#[cfg(test)]
mod tests {
    use super::*;

    #[test]
    fn protection_by_letters() {
        let bits = [&b"rwed"[..], b"----rwed", b"rw", b"hsparwed", b"-", b"p", b"der"].map(letters);
        assert_eq!(bits, [Some(0), Some(0), Some(3), Some(0xF0), Some(0x0F), Some(0x2F), Some(4)]);
        assert_eq!([&b""[..], b"x", b"rr", b"rwed "].map(letters), [None; 4]);
    }
}
