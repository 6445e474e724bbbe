//! Settings files: records of a key and its seconds, all of one form. A [`Form`] says how a record is stored,
//! and all else goes by it; a [`Converter`] is whoever runs the two conversions.

use std::fmt;

use crate::refusals::Error;

/// The most records that a file has.
pub const MOST_RECORDS: usize = 512;

/// How a record is stored: its mark, a two-byte key, and so many bytes of seconds, numbers big-endian.
#[derive(Clone, Copy, Debug, PartialEq, Eq)]
pub struct Form {
    pub name: &'static str,
    pub mark: [u8; 2],
    pub width: usize,
}

impl Form {
    pub const OLD: Form = Form { name: "old", mark: *b"S1", width: 2 };
    pub const NEW: Form = Form { name: "new", mark: *b"S2", width: 4 };

    /// The bytes of a record.
    pub const fn record_length(self) -> usize {
        4 + self.width
    }

    /// The most seconds that a record can hold.
    pub fn most_seconds(self) -> u64 {
        (1 << (8 * self.width)) - 1
    }
}

/// A record: a key with its seconds.
#[derive(Clone, Copy, Debug, PartialEq, Eq)]
pub struct Setting {
    pub key: u16,
    pub seconds: u32,
}

impl Setting {
    /// Its bytes in a form that can hold it.
    pub fn bytes(self, form: Form) -> Vec<u8> {
        let seconds = &self.seconds.to_be_bytes()[4 - form.width..];
        [&form.mark[..], &self.key.to_be_bytes(), seconds].concat()
    }
}

/// Hours, minutes and seconds.
pub fn clock(seconds: u32) -> String {
    format!("{}:{:02}:{:02}", seconds / 3_600, seconds / 60 % 60, seconds % 60)
}

/// Why a file is not of a form: what is wrong with its first wrong record.
#[derive(Clone, Copy, Debug, PartialEq, Eq)]
pub struct Fault {
    /// From 0.
    pub record: usize,
    /// Where the record begins in the file.
    pub place: usize,
    pub wrong: Wrong,
}

/// What is wrong with a record.
#[derive(Clone, Copy, Debug, PartialEq, Eq)]
pub enum Wrong {
    /// It is behind the last one that a file may have.
    TooMany,
    /// The file ends in it, after so many of so many bytes.
    CutOff(usize, usize),
    /// It begins with these two bytes and not with those.
    Mark([u8; 2], [u8; 2]),
    /// Its key is not above the one before it.
    Key(u16, u16),
}

/// The place of a record in words: records count from 1 and bytes from 0.
pub fn place_in_words(form: Form, record: usize) -> String {
    format!("record {} at byte {}", record + 1, record * form.record_length())
}

impl fmt::Display for Fault {
    fn fmt(&self, f: &mut fmt::Formatter) -> fmt::Result {
        write!(f, "record {} at byte {} ", self.record + 1, self.place)?;
        match self.wrong {
            Wrong::TooMany => write!(f, "is one too many: {MOST_RECORDS} are the most"),
            Wrong::CutOff(held, length) => write!(f, "is cut off after {held} of {length} bytes"),
            Wrong::Mark(found, asked) => {
                write!(f, "has the mark {} and not {}", found.escape_ascii(), asked.escape_ascii())
            }
            Wrong::Key(key, before) => write!(f, "has key {key}, which is not above {before}"),
        }
    }
}

/// The records of a file of this form, in order, or its first fault.
pub fn settings(form: Form, file: &[u8]) -> Result<Vec<Setting>, Fault> {
    let mut settings: Vec<Setting> = Vec::new();
    for (record, bytes) in file.chunks(form.record_length()).enumerate() {
        let fault = |wrong| Err(Fault { record, place: record * form.record_length(), wrong });
        if record == MOST_RECORDS {
            return fault(Wrong::TooMany);
        }
        if let [high, low, ..] = *bytes {
            if [high, low] != form.mark {
                return fault(Wrong::Mark([high, low], form.mark));
            }
        }
        if bytes.len() < form.record_length() {
            return fault(Wrong::CutOff(bytes.len(), form.record_length()));
        }
        let key = u16::from_be_bytes([bytes[2], bytes[3]]);
        match settings.last() {
            Some(before) if key <= before.key => return fault(Wrong::Key(key, before.key)),
            _ => {}
        }
        let seconds = bytes[4..].iter().fold(0, |seconds, &byte| seconds << 8 | u32::from(byte));
        settings.push(Setting { key, seconds });
    }
    Ok(settings)
}

/// The conversions: from old records to new ones, and back.
#[derive(Clone, Copy, Debug, PartialEq, Eq)]
pub enum Conversion {
    Widen,
    Narrow,
}

impl Conversion {
    pub const BOTH: [Conversion; 2] = [Conversion::Widen, Conversion::Narrow];

    /// The call's name.
    pub fn word(self) -> &'static str {
        match self {
            Conversion::Widen => "widen",
            Conversion::Narrow => "narrow",
        }
    }

    /// The form that the file has.
    pub fn from(self) -> Form {
        match self {
            Conversion::Widen => Form::OLD,
            Conversion::Narrow => Form::NEW,
        }
    }

    /// The form that the result has.
    pub fn to(self) -> Form {
        match self {
            Conversion::Widen => Form::NEW,
            Conversion::Narrow => Form::OLD,
        }
    }
}

/// Whoever converts settings files.
pub trait Converter {
    /// Converts a file into the output buffer and answers 0, 50, 51 or 52. The fields are the bytes written and,
    /// with 51, the first key whose seconds are too many; 0 where they have no meaning.
    fn answer(conversion: Conversion, file: &[u8], out: &mut [u8], fields: &mut [u32; 2]) -> u32;
}

/// Why a file was not converted.
#[derive(Clone, Copy, Debug, PartialEq, Eq)]
pub struct Refused {
    pub error: Error,
    /// With 51 the first key whose seconds are too many.
    pub key: Option<u16>,
}

/// The converted file. The buffer always has room, so it is refused by 50 or 51 alone.
///
/// ```
/// use ovenknit_host::model::Model;
/// use ovenknit_host::settings::{convert, Conversion};
///
/// let new = convert::<Model>(Conversion::Widen, b"S1\x00\x07\xFF\xFF").expect("it is of the old form");
/// assert_eq!(new, b"S2\x00\x07\x00\x00\xFF\xFF");
/// assert_eq!(convert::<Model>(Conversion::Narrow, &new).expect("it fits"), b"S1\x00\x07\xFF\xFF");
///
/// let refused = convert::<Model>(Conversion::Narrow, b"S2\x00\x07\x00\x01\x00\x00").unwrap_err();
/// assert_eq!((refused.error.number(), refused.key), (51, Some(7)));
/// ```
pub fn convert<L: Converter>(conversion: Conversion, file: &[u8]) -> Result<Vec<u8>, Refused> {
    let mut out = vec![0; MOST_RECORDS * conversion.to().record_length()];
    let mut fields = [0; 2];
    let answer = L::answer(conversion, file, &mut out, &mut fields);
    let key = (answer == 51).then_some(fields[1] as u16);
    Error::of(answer).map_err(|error| Refused { error, key })?;
    out.truncate(fields[0] as usize);
    Ok(out)
}

/// The form that a file has, if any: the one whose conversion does not answer 50. The empty file counts as old.
pub fn form_of<L: Converter>(file: &[u8]) -> Option<Form> {
    let is_of = |conversion: &Conversion| match convert::<L>(*conversion, file) {
        Err(refused) => refused.error.number() != 50,
        Ok(_) => true,
    };
    Conversion::BOTH.into_iter().find(is_of).map(Conversion::from)
}

#[cfg(test)]
mod tests {
    use super::*;

    #[test]
    fn clocks() {
        assert_eq!([0, 300, 65_535, 86_400].map(clock), ["0:00:00", "0:05:00", "18:12:15", "24:00:00"]);
        assert_eq!(clock(u32::MAX), "1193046:28:15");
        assert_eq!((Form::OLD.most_seconds(), Form::NEW.most_seconds()), (65_535, u64::from(u32::MAX)));
    }

    #[test]
    fn faults_say_where() {
        let old = |keys: &[u16]| -> Vec<u8> {
            keys.iter().flat_map(|&key| Setting { key, seconds: 300 }.bytes(Form::OLD)).collect()
        };
        let said = |file: &[u8]| settings(Form::OLD, file).map_err(|fault| fault.to_string());
        assert_eq!(said(&old(&[7, 9])).map(|settings| settings.len()), Ok(2));
        assert_eq!(said(&old(&[7, 7])), Err("record 2 at byte 6 has key 7, which is not above 7".into()));
        assert_eq!(said(&old(&[7, 9])[..9]), Err("record 2 at byte 6 is cut off after 3 of 6 bytes".into()));
        assert_eq!(said(b"S2\0\0\0\0"), Err("record 1 at byte 0 has the mark S2 and not S1".into()));
        let many: Vec<u16> = (0..513).collect();
        assert_eq!(
            said(&old(&many)),
            Err("record 513 at byte 3072 is one too many: 512 are the most".into())
        );
    }
}
