//! The proved conversions of settings files against the model: the same file and buffer must give the same
//! answer and the same fields, and leave the same bytes in the buffer to its end.

use ovenknit_host::ffi::Proved;
use ovenknit_host::model::Model;
use ovenknit_host::rng::{seeded, Rng};
use ovenknit_host::settings::{settings, Conversion, Converter, Form, Setting, MOST_RECORDS};

/// How often each conversion gave each answer.
#[derive(Default)]
struct Answers {
    given: Vec<(Conversion, u32)>,
}

impl Answers {
    fn count(&self, conversion: Conversion, answer: u32) -> usize {
        self.given.iter().filter(|&&given| given == (conversion, answer)).count()
    }

    /// Every answer that a conversion can give was given; 51 is for narrow alone.
    fn assert_all(&self) {
        for conversion in Conversion::BOTH {
            for answer in [0, 50, 51, 52] {
                let (count, can) =
                    (self.count(conversion, answer), answer != 51 || conversion == Conversion::Narrow);
                println!("{conversion:?} {answer}: {count}");
                assert_eq!(count > 0, can, "{conversion:?} {answer}");
            }
        }
    }
}

/// Converts a file by both libraries into a buffer of this length that is full of junk.
fn compare(conversion: Conversion, file: &[u8], room: usize, answers: &mut Answers, rng: &mut Rng) -> u32 {
    let junk: Vec<u8> = (0..room).map(|_| rng.byte()).collect();
    let (mut out, mut expected) = (junk.clone(), junk.clone());
    let (mut fields, mut expected_fields) = ([rng.next64() as u32; 2], [rng.next64() as u32; 2]);
    let before = file.to_vec();
    let answer = Proved::answer(conversion, file, &mut out, &mut fields);
    let modelled = Model::answer(conversion, file, &mut expected, &mut expected_fields);
    let told = (answer, fields);
    assert_eq!(told, (modelled, expected_fields), "{conversion:?} of {file:?} with room {room}");
    assert_eq!(out, expected, "{conversion:?} of {file:?} with room {room}");
    assert_eq!(file, before);
    // What no answer may touch: the buffer after a refusal, and what lies past the result always.
    let written = fields[0] as usize;
    assert!(answer == 0 || (written == 0 && out == junk));
    assert_eq!(out[written..], junk[written..]);
    answers.given.push((conversion, answer));
    answer
}

fn bytes(form: Form, settings: &[Setting]) -> Vec<u8> {
    settings.iter().flat_map(|setting| setting.bytes(form)).collect()
}

/// So many records with rising keys, and seconds that often lie at an edge of what two or four bytes hold.
fn random_settings(count: usize, form: Form, rng: &mut Rng) -> Vec<Setting> {
    let mut keys: Vec<u16> = Vec::new();
    while keys.len() < count {
        keys.push(rng.word());
        keys.sort_unstable();
        keys.dedup();
    }
    let edges = [0, 1, 255, 256, 65_534, 65_535, 65_536, 65_537, 86_400, u32::MAX - 1, u32::MAX];
    let mut seconds = |_| match rng.below(4) {
        0 => *rng.pick(&edges).expect("there are edges"),
        1 => rng.next64() as u32,
        _ => u32::from(rng.word()),
    };
    let most = form.most_seconds() as u32;
    keys.into_iter().map(|key| Setting { key, seconds: seconds(key).min(most) }).collect()
}

/// A buffer with room, without, or at the very edge.
fn random_room(conversion: Conversion, file: &[u8], rng: &mut Rng) -> usize {
    let needed = file.len() / conversion.from().record_length() * conversion.to().record_length();
    match rng.below(5) {
        0 => needed,
        1 => needed.saturating_sub(1),
        2 => rng.below(needed + 1),
        _ => needed + rng.below(20),
    }
}

/// One change that most often breaks the form.
fn damage(file: &mut Vec<u8>, form: Form, rng: &mut Rng) {
    let length = form.record_length();
    let records = file.len() / length;
    match rng.below(5) {
        0 => file.truncate(rng.below(file.len() + 1)),
        1 => file.push(rng.byte()),
        2 if records > 0 => file[rng.below(records) * length + rng.below(2)] ^= 1 << rng.below(8),
        3 if records > 1 => {
            // A key as it stands in the record before, or one less or more.
            let at = rng.within(1..=records - 1) * length + 2;
            let before = u16::from_be_bytes([file[at - length], file[at - length + 1]]);
            let key = before.wrapping_sub(1).wrapping_add(rng.below(3) as u16);
            file[at..at + 2].copy_from_slice(&key.to_be_bytes());
        }
        _ if !file.is_empty() => {
            let at = rng.below(file.len());
            file[at] = rng.byte();
        }
        _ => {}
    }
}

#[test]
fn conversions_equal_the_model() {
    let mut answers = Answers::default();
    for mut case in seeded("conversions_equal_the_model", 0..20_000) {
        let rng = &mut case.rng;
        let form = *rng.pick(&[Form::OLD, Form::NEW]).expect("there are two");
        let count = if rng.percent(5) { rng.within(505..=515) } else { rng.below(12) };
        let mut file = bytes(form, &random_settings(count, form, rng));
        if rng.percent(40) {
            damage(&mut file, form, rng);
        }
        for conversion in Conversion::BOTH {
            let room = random_room(conversion, &file, rng);
            compare(conversion, &file, room, &mut answers, rng);
        }
    }
    answers.assert_all();
}

#[test]
fn the_largest_file_and_one_record_more() {
    let mut answers = Answers::default();
    let rng = &mut Rng::new(512);
    for conversion in Conversion::BOTH {
        let (from, to) = (conversion.from(), conversion.to());
        for (count, answer) in [(MOST_RECORDS - 1, 0), (MOST_RECORDS, 0), (MOST_RECORDS + 1, 50), (2_000, 50)]
        {
            let settings: Vec<Setting> =
                (0..count as u16).map(|key| Setting { key, seconds: 65_535 }).collect();
            let file = bytes(from, &settings);
            let room = count * to.record_length();
            assert_eq!(compare(conversion, &file, room, &mut answers, rng), answer, "{count} records");
            assert_eq!(compare(conversion, &file, room + 7, &mut answers, rng), answer, "{count} records");
            let short = if answer == 0 { 52 } else { answer };
            assert_eq!(compare(conversion, &file, room - 1, &mut answers, rng), short, "{count} records");
        }
    }
}

/// Every prefix of a file is of the form if it ends with a record, and else it is not; the other form never is.
#[test]
fn every_prefix_of_a_file() {
    let mut answers = Answers::default();
    let rng = &mut Rng::new(12);
    for conversion in Conversion::BOTH {
        let (from, to) = (conversion.from(), conversion.to());
        let file = bytes(from, &random_settings(40, Form::OLD, rng));
        for length in 0..=file.len() {
            let prefix = &file[..length];
            let whole = length % from.record_length() == 0;
            let room = length / from.record_length() * to.record_length();
            let answer = compare(conversion, prefix, room, &mut answers, rng);
            assert_eq!(answer, if whole { 0 } else { 50 }, "{length} bytes");
            if room > 0 {
                let answer = compare(conversion, prefix, rng.below(room), &mut answers, rng);
                assert_eq!(answer, if whole { 52 } else { 50 }, "{length} bytes");
            }
            for other in Conversion::BOTH.into_iter().filter(|&other| other != conversion) {
                let answer = compare(other, prefix, 4_096, &mut answers, rng);
                assert_eq!(answer, if length == 0 { 0 } else { 50 }, "{length} bytes");
            }
        }
    }
}

#[test]
fn random_bytes() {
    let mut answers = Answers::default();
    for mut case in seeded("random_bytes", 0..20_000) {
        let rng = &mut case.rng;
        let length = if rng.percent(90) { rng.below(60) } else { rng.below(5_000) };
        // Marks come often, so that more than the first byte is looked at.
        let letters = [b'S', b'1', b'2', 0, 1, 255];
        let marks = rng.percent(50);
        let file: Vec<u8> = (0..length)
            .map(|_| if marks { *rng.pick(&letters).expect("there are letters") } else { rng.byte() })
            .collect();
        for conversion in Conversion::BOTH {
            let room = random_room(conversion, &file, rng);
            compare(conversion, &file, room, &mut answers, rng);
        }
    }
    assert!(answers.count(Conversion::Widen, 50) > 10_000);
}

/// With room, each conversion undoes the other, and both keep each key and its seconds in order.
#[test]
fn there_and_back() {
    for mut case in seeded("there_and_back", 0..2_000) {
        let rng = &mut case.rng;
        for conversion in Conversion::BOTH {
            let count = if rng.percent(5) { MOST_RECORDS } else { rng.below(40) };
            let first = random_settings(count, Form::OLD, rng);
            let file = bytes(conversion.from(), &first);
            let result = ovenknit_host::settings::convert::<Proved>(conversion, &file).expect("it is done");
            assert_eq!(settings(conversion.to(), &result), Ok(first));
            let back = match conversion {
                Conversion::Widen => Conversion::Narrow,
                Conversion::Narrow => Conversion::Widen,
            };
            assert_eq!(ovenknit_host::settings::convert::<Proved>(back, &result), Ok(file));
        }
    }
}
