//! Names and comments as people write them. On a disk they are bytes: a name has any but 0, `:` and `/`, a comment any.
//!
//! In texts `\xNN` is any byte and `\\` a backslash. What is shown can be typed again.

use std::ffi::OsStr;

/// How bytes are read as letters.
#[derive(Clone, Copy, Debug, Default, PartialEq, Eq)]
pub enum Charset {
    #[default]
    Utf8,
    /// Every byte is the letter of that number.
    Latin1,
}

impl Charset {
    /// Bytes as text: what is not a letter that can be seen as `\xNN`, so are quotes, and a backslash as two. It can be
    /// read back by [`Charset::bytes`].
    pub fn show(self, bytes: &[u8]) -> String {
        let mut text = String::new();
        match self {
            Charset::Latin1 => bytes.iter().for_each(|&byte| push(char::from(byte), &[byte], &mut text)),
            Charset::Utf8 => {
                for chunk in bytes.utf8_chunks() {
                    for letter in chunk.valid().chars() {
                        push(letter, letter.encode_utf8(&mut [0; 4]).as_bytes(), &mut text);
                    }
                    chunk.invalid().iter().for_each(|&byte| escape(byte, &mut text));
                }
            }
        }
        text
    }

    /// The same in quotes unless it is a plain word, so that it cannot be taken for two things or for something else.
    pub fn quoted(self, bytes: &[u8]) -> String {
        quoted(&self.show(bytes))
    }

    /// The bytes that a text with escapes stands for, or what is wrong with it.
    pub fn bytes(self, text: &[u8]) -> Result<Vec<u8>, &'static str> {
        Ok(self.read(text)?.into_iter().map(|(byte, _)| byte).collect())
    }

    /// The same, each byte with whether it was written as itself and not as an escape.
    pub fn read(self, text: &[u8]) -> Result<Vec<(u8, bool)>, &'static str> {
        let mut bytes = Vec::new();
        let mut rest = text;
        while let Some((&first, behind)) = rest.split_first() {
            let (byte, behind) = match (first, behind) {
                (b'\\', [b'\\', behind @ ..]) => (b'\\', behind),
                (b'\\', [b'x', high, low, behind @ ..]) => (escaped(*high, *low)?, behind),
                (b'\\', _) => return Err(ESCAPES),
                (128.., _) if self == Charset::Latin1 => {
                    let (byte, behind) = latin1(rest)?;
                    bytes.push((byte, true));
                    rest = behind;
                    continue;
                }
                _ => {
                    bytes.push((first, true));
                    rest = behind;
                    continue;
                }
            };
            bytes.push((byte, false));
            rest = behind;
        }
        Ok(bytes)
    }

    /// How many bytes the first letter of a name takes; a byte that begins none counts as one.
    pub fn first_letter(self, bytes: &[u8]) -> usize {
        let letters = |length: &usize| bytes.get(..*length).is_some_and(|head| str::from_utf8(head).is_ok());
        match self {
            Charset::Latin1 => 1,
            Charset::Utf8 => (1..=4).find(letters).unwrap_or(1),
        }
    }

    /// A name of the disk as the name of a file here; nothing if no file here can have it.
    pub fn file_name(self, name: &[u8]) -> Option<String> {
        let text = match self {
            Charset::Utf8 => String::from_utf8(name.to_vec()).ok()?,
            Charset::Latin1 => name.iter().map(|&byte| char::from(byte)).collect(),
        };
        (text != "." && text != "..").then_some(text)
    }

    /// The name of a file here as a name on the disk.
    pub fn disk_name(self, name: &OsStr) -> Result<Vec<u8>, &'static str> {
        let bytes = name.as_encoded_bytes();
        match self {
            Charset::Utf8 => Ok(bytes.to_vec()),
            Charset::Latin1 => {
                let text = str::from_utf8(bytes).map_err(|_| NOT_LATIN1)?;
                text.chars().map(|letter| u8::try_from(letter).map_err(|_| NOT_LATIN1)).collect()
            }
        }
    }
}

const ESCAPES: &str = "a backslash with no \\ or xNN behind it";
const NOT_LATIN1: &str = "a letter that Latin-1 does not have";

/// The first letter of a text as its byte in Latin-1, and what is behind it.
fn latin1(text: &[u8]) -> Result<(u8, &[u8]), &'static str> {
    let length = Charset::Utf8.first_letter(text);
    let letter = str::from_utf8(&text[..length]).ok().and_then(|text| text.chars().next());
    let byte = letter.and_then(|letter| u8::try_from(letter).ok()).ok_or(NOT_LATIN1)?;
    Ok((byte, &text[length..]))
}

/// A letter if it can be seen, else its bytes as escapes.
fn push(letter: char, bytes: &[u8], text: &mut String) {
    match letter {
        '\\' => *text += "\\\\",
        '\'' => text.push(letter),
        // Control and format characters, spaces but the plain one, and marks that join the letter before them.
        _ if letter.escape_debug().nth(1).is_some() => bytes.iter().for_each(|&byte| escape(byte, text)),
        _ => text.push(letter),
    }
}

fn escape(byte: u8, text: &mut String) {
    *text += &format!("\\x{byte:02x}");
}

fn escaped(high: u8, low: u8) -> Result<u8, &'static str> {
    let digit = |digit: u8| char::from(digit).to_digit(16).map(|digit| digit as u8);
    let byte = digit(high).zip(digit(low)).map(|(high, low)| high << 4 | low);
    byte.ok_or(ESCAPES)
}

/// A text in quotes unless it is a plain word. It has no quote in it.
pub fn quoted(text: &str) -> String {
    let plain = |letter: char| letter.is_alphanumeric() || "._-+,=@%~/\\".contains(letter);
    match !text.is_empty() && text.chars().all(plain) {
        true => text.to_string(),
        false => format!("\"{text}\""),
    }
}

/// A word of the command line as text without quotes.
pub fn os(word: &OsStr) -> String {
    Charset::Utf8.show(word.as_encoded_bytes())
}

/// A word of the command line as text.
pub fn show_os(word: &OsStr) -> String {
    Charset::Utf8.quoted(word.as_encoded_bytes())
}

#[cfg(test)]
mod tests {
    use super::*;

    #[test]
    fn every_name_can_be_written() {
        let all: Vec<u8> = (1..=255).collect();
        for name in [&b"pack7"[..], "Käse".as_bytes(), b"a\\b", b"\x1b[31m", b"\xe4\xff", b"a\"b", &all] {
            for charset in [Charset::Utf8, Charset::Latin1] {
                let text = charset.show(name);
                assert!(!text.chars().any(|letter| letter.is_control() || letter == '"'));
                assert_eq!(charset.bytes(text.as_bytes()).as_deref(), Ok(name));
            }
        }
        assert_eq!(Charset::Utf8.show("Käse\n\\".as_bytes()), "Käse\\x0a\\\\");
        assert_eq!(Charset::Latin1.show(b"K\xe4se\x9f"), "Käse\\x9f");
        assert_eq!(Charset::Latin1.bytes("Käse\\xe4".as_bytes()).as_deref(), Ok(&b"K\xe4se\xe4"[..]));
        for bad in [&b"\\"[..], b"\\n", b"\\x1", b"\\xg0"] {
            assert_eq!(Charset::Utf8.bytes(bad), Err(ESCAPES));
        }
        for bad in ["\u{100}".as_bytes(), b"\xe4"] {
            assert_eq!(Charset::Latin1.bytes(bad), Err(NOT_LATIN1));
        }
    }

    /// Characters that cannot be seen, or that turn around what is behind them.
    #[test]
    fn what_cannot_be_seen_is_escaped() {
        for letter in
            ['\u{202e}', '\u{200b}', '\u{ad}', '\u{a0}', '\u{2028}', '\u{feff}', '\u{e000}', '\u{301}']
        {
            let text = Charset::Utf8.show(format!("a{letter}b").as_bytes());
            assert!(text.is_ascii() && text.starts_with("a\\x") && text.ends_with('b'), "{text}");
        }
    }

    #[test]
    fn words_are_quoted_where_they_must_be() {
        assert_eq!(
            ["pack7", "recipes/Käse", "a b", "", "a\\x22"].map(quoted),
            ["pack7", "recipes/Käse", "\"a b\"", "\"\"", "a\\x22"]
        );
        assert_eq!(Charset::Utf8.quoted(b"pack7  \"line 3\""), "\"pack7  \\x22line 3\\x22\"");
    }

    #[test]
    fn letters_and_names() {
        assert_eq!(
            ["Kä", "äK", "€", "\u{1f35e}"].map(|text| Charset::Utf8.first_letter(text.as_bytes())),
            [1, 2, 3, 4]
        );
        assert_eq!(
            [Charset::Utf8.first_letter(b"\xe4se"), Charset::Latin1.first_letter("ä".as_bytes())],
            [1, 1]
        );
        assert_eq!(Charset::Latin1.file_name(b"K\xe4se").as_deref(), Some("Käse"));
        assert_eq!([&b"."[..], b"..", b"\xe4"].map(|name| Charset::Utf8.file_name(name)), [None, None, None]);
        assert_eq!(Charset::Latin1.disk_name(OsStr::new("Käse")).as_deref(), Ok(&b"K\xe4se"[..]));
        assert_eq!(Charset::Latin1.disk_name(OsStr::new("€")), Err(NOT_LATIN1));
    }
}
