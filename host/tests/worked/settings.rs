//! Settings files worked out by hand.

use ovenknit_host::settings::{convert, form_of, Conversion, Converter, Form};

/// What a conversion leaves: its answer, the buffer and the fields.
type Left = (u32, Vec<u8>, [u32; 2]);

/// Converts into a buffer of 0xA5.
fn left<L: Converter>(conversion: Conversion, file: &[u8], room: usize) -> Left {
    let (mut out, mut fields) = (vec![0xA5; room], [0xA5A5_A5A5; 2]);
    let answer = L::answer(conversion, file, &mut out, &mut fields);
    (answer, out, fields)
}

fn refused(answer: u32, room: usize, key: u32) -> Left {
    (answer, vec![0xA5; room], [0, key])
}

const OLD: &[u8] = b"S1\x00\x07\xFF\xFFS1\x01\x02\x00\x00";
const NEW: &[u8] = b"S2\x00\x07\x00\x00\xFF\xFFS2\x01\x02\x00\x00\x00\x00";
/// Keys 1, 9 and 258; the last two have 65,536 s and more.
const LONG: &[u8] = b"S2\x00\x01\x00\x00\xFF\xFFS2\x00\x09\x00\x01\x00\x00S2\x01\x02\xFF\xFF\xFF\xFF";

fn both_ways<L: Converter>() {
    assert_eq!(left::<L>(Conversion::Widen, OLD, 18), (0, [NEW, b"\xA5\xA5"].concat(), [16, 0]));
    assert_eq!(left::<L>(Conversion::Narrow, NEW, 12), (0, OLD.to_vec(), [12, 0]));
    assert_eq!(convert::<L>(Conversion::Widen, OLD).as_deref(), Ok(NEW));
    assert_eq!(convert::<L>(Conversion::Narrow, NEW).as_deref(), Ok(OLD));
    assert_eq!(
        (form_of::<L>(OLD), form_of::<L>(NEW), form_of::<L>(LONG)),
        (Some(Form::OLD), Some(Form::NEW), Some(Form::NEW))
    );
}

fn an_empty_file_is_both<L: Converter>() {
    for conversion in Conversion::BOTH {
        assert_eq!(left::<L>(conversion, b"", 0), (0, vec![], [0, 0]));
        assert_eq!(left::<L>(conversion, b"", 3), (0, vec![0xA5; 3], [0, 0]));
    }
}

fn not_of_the_form<L: Converter>() {
    for (conversion, file) in [
        (Conversion::Widen, NEW),
        (Conversion::Narrow, OLD),
        // A part of a record, also where the marks go on.
        (Conversion::Widen, &OLD[..11]),
        (Conversion::Widen, &OLD[..1]),
        (Conversion::Narrow, &NEW[..12]),
        // A key that repeats, one that falls, and a second record of the other form.
        (Conversion::Widen, b"S1\x00\x07\x00\x01S1\x00\x07\x00\x02"),
        (Conversion::Widen, b"S1\x01\x00\x00\x01S1\x00\xFF\x00\x02"),
        (Conversion::Widen, b"S1\x00\x07\x00\x01S2\x00\x08\x00\x02"),
        (Conversion::Narrow, b"S2\x00\x07\x00\x00\x00\x01S2\x00\x07\x00\x00\x00\x02"),
        // 50 comes before 51 and 52.
        (Conversion::Narrow, b"S2\x00\x07\x00\x01\x00\x00S2\x00\x07\x00\x00\x00\x02"),
    ] {
        for room in [0, 64] {
            assert_eq!(left::<L>(conversion, file, room), refused(50, room, 0), "{conversion:?} {file:?}");
        }
    }
    assert_eq!(form_of::<L>(b"S3"), None);
}

fn too_long_for_two_bytes<L: Converter>() {
    // The first such key is named, whatever the room.
    for room in [0, 17, 18, 64] {
        assert_eq!(left::<L>(Conversion::Narrow, LONG, room), refused(51, room, 9));
    }
    assert_eq!(left::<L>(Conversion::Narrow, &LONG[..8], 6), (0, b"S1\x00\x01\xFF\xFF".to_vec(), [6, 0]));
    let refused = convert::<L>(Conversion::Narrow, LONG).unwrap_err();
    assert_eq!((refused.error.number(), refused.key), (51, Some(9)));
}

fn a_short_buffer<L: Converter>() {
    for room in [0, 15] {
        assert_eq!(left::<L>(Conversion::Widen, OLD, room), refused(52, room, 0));
    }
    for room in [0, 11] {
        assert_eq!(left::<L>(Conversion::Narrow, NEW, room), refused(52, room, 0));
    }
}

both!(both_ways, an_empty_file_is_both, not_of_the_form, too_long_for_two_bytes, a_short_buffer);
