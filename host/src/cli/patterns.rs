//! Paths with wildcards: `*` stands for any run of letters within a name, `?` for one.

use super::paths::Path;
use super::text::{self, Charset};
use super::walk::{self, Found};
use super::{refused, Failure};
use crate::calls::{Library, ROOT};
use crate::disk::{Disk, Error, Kind};
use crate::names::alike;

#[derive(Clone, Copy, Debug, PartialEq, Eq)]
enum Token {
    Byte(u8),
    One,
    Any,
}

/// A path, some of whose names may be patterns.
pub struct Pattern {
    names: Vec<Vec<Token>>,
    charset: Charset,
    text: String,
}

impl Pattern {
    /// A wildcard that is written as an escape is none.
    pub fn parse(text: &[u8], charset: Charset) -> Result<Self, &'static str> {
        let token = |(byte, plain): (u8, bool)| match (byte, plain) {
            (b'*', true) => Token::Any,
            (b'?', true) => Token::One,
            _ => Token::Byte(byte),
        };
        let parts = text.split(|&byte| byte == b'/').filter(|part| !part.is_empty());
        let names = parts.map(|part| Ok(charset.read(part)?.into_iter().map(token).collect()));
        let names = names.collect::<Result<_, _>>()?;
        Ok(Pattern { names, charset, text: text::quoted(&String::from_utf8_lossy(text)) })
    }

    /// All entries that it matches, of which there is one at least; nothing for the root, which is no entry. A name that
    /// is there just as it is written is meant before any other that it matches.
    pub fn found<L: Library>(&self, disk: &mut Disk<L>) -> Result<Option<Vec<Found>>, Failure> {
        let mut found: Option<Vec<Found>> = None;
        for (place, tokens) in self.names.iter().enumerate() {
            let last = place + 1 == self.names.len();
            let directories = match found {
                None => vec![(Path::root(self.charset), ROOT)],
                Some(found) => found.into_iter().map(|found| (found.path, found.entry.anode)).collect(),
            };
            let mut here = Vec::new();
            for (path, number) in &directories {
                here.extend(self.in_directory(disk, path, *number, tokens, last)?);
            }
            if here.is_empty() {
                return Err(refused(&self.text)(Error::NotFound));
            }
            found = Some(here);
        }
        Ok(found)
    }

    /// The entries of one directory that a name matches. Where more names follow, only directories are looked for by
    /// wildcards.
    fn in_directory<L: Library>(
        &self,
        disk: &mut Disk<L>,
        path: &Path,
        directory: u16,
        tokens: &[Token],
        last: bool,
    ) -> Result<Vec<Found>, Failure> {
        let name = literal(tokens);
        match disk.find(directory, &name) {
            Ok(entry) => return Ok(vec![Found { path: path.join(&entry.name), directory, entry }]),
            Err(Error::NotFound) => {}
            Err(error) => return Err(refused(&self.text)(error)),
        }
        if tokens.iter().all(|token| matches!(token, Token::Byte(_))) {
            return Ok(Vec::new());
        }
        let fits = |found: &Found| {
            (last || found.entry.kind == Kind::Directory) && matches(tokens, &found.entry.name, self.charset)
        };
        Ok(walk::entries(disk, path, directory)?.into_iter().filter(fits).collect())
    }
}

/// The name as it is written.
fn literal(tokens: &[Token]) -> Vec<u8> {
    let byte = |token: &Token| match token {
        Token::Byte(byte) => *byte,
        Token::One => b'?',
        Token::Any => b'*',
    };
    tokens.iter().map(byte).collect()
}

/// Does a name fit a pattern, where capitals are the same as small letters? Goes back only to the last `*`, which is enough.
fn matches(tokens: &[Token], name: &[u8], charset: Charset) -> bool {
    let (mut token, mut at) = (0, 0);
    let mut any: Option<(usize, usize)> = None;
    while at < name.len() {
        match (tokens.get(token), any) {
            (Some(Token::Any), _) => {
                any = Some((token, at));
                token += 1;
            }
            (Some(Token::One), _) => {
                at += charset.first_letter(&name[at..]);
                token += 1;
            }
            (Some(Token::Byte(byte)), _) if alike(&[*byte], &name[at..=at]) => {
                at += 1;
                token += 1;
            }
            (_, Some((star, from))) => {
                any = Some((star, from + 1));
                (token, at) = (star + 1, from + 1);
            }
            _ => return false,
        }
    }
    tokens[token..].iter().all(|token| *token == Token::Any)
}

#[cfg(test)]
mod tests {
    use super::*;

    fn fits(pattern: &str, name: &str) -> bool {
        let pattern = Pattern::parse(pattern.as_bytes(), Charset::Utf8).expect("it is a pattern");
        matches(&pattern.names[0], name.as_bytes(), Charset::Utf8)
    }

    #[test]
    fn names_and_patterns() {
        for (pattern, name) in [
            ("*", "pack7"),
            ("pack?", "pack7"),
            ("p*k*7", "pack77"),
            ("*.txt", "a.txt.txt"),
            ("K?se", "K\u{e4}se"),
            ("a\\x2ab", "a*b"),
            ("**", "x"),
            ("a*", "a"),
            ("PACK?", "pack7"),
            ("p*K", "PacK"),
        ] {
            assert!(fits(pattern, name), "{pattern} {name}");
        }
        for (pattern, name) in [
            ("pack?", "pack"),
            ("pack?", "pack77"),
            ("*.txt", "a.tx"),
            ("a\\x2ab", "axb"),
            ("?", ""),
            ("a", "ab"),
            ("[*", "{x"),
            ("K\u{c4}*", "K\u{e4}se"),
        ] {
            assert!(!fits(pattern, name), "{pattern} {name}");
        }
        // No pattern takes long.
        assert!(!fits(&"*a".repeat(50), &"a".repeat(49)) && fits(&"*a".repeat(50), &"a".repeat(107)));
    }
}
