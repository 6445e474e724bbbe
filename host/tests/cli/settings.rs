//! The command `settings`.

use crate::folder::Folder;

/// Keys 7 with 65,535 s and 258 with 300 s.
const OLD: &[u8] = b"S1\x00\x07\xFF\xFFS1\x01\x02\x01\x2C";
const NEW: &[u8] = b"S2\x00\x07\x00\x00\xFF\xFFS2\x01\x02\x00\x00\x01\x2C";
const SHOWN: &str = "  key     seconds          time
    7       65535      18:12:15
  258         300       0:05:00
";

#[test]
fn widened_narrowed_and_shown() {
    let folder = Folder::new("settings");
    folder.write("times", OLD);
    assert_eq!(folder.done(&["settings", "show", "times"]), SHOWN);
    assert_eq!(folder.done(&["settings", "widen", "times", "times.new"]), "");
    assert_eq!((folder.read("times"), folder.read("times.new")), (OLD.to_vec(), NEW.to_vec()));
    assert_eq!(folder.done(&["settings", "show", "times.new"]), SHOWN);
    // In place, and into a file that is there.
    folder.done(&["settings", "widen", "times"]);
    assert_eq!(folder.read("times"), NEW);
    folder.done(&["settings", "narrow", "times", "times.new"]);
    assert_eq!(folder.read("times.new"), OLD);
    folder.done(&["settings", "narrow", "times"]);
    assert_eq!(folder.read("times"), OLD);
    // From standard input, and an empty file.
    let run = folder.run_with_input(&["settings", "widen", "-", "piped"], OLD);
    assert_eq!((run.status, folder.read("piped")), (0, NEW.to_vec()));
    folder.write("empty", b"");
    folder.done(&["settings", "narrow", "empty"]);
    assert_eq!(folder.done(&["settings", "show", "empty"]), "  key     seconds          time\n");
    assert_eq!(folder.names(), ["empty", "piped", "times", "times.new"]);
}

#[test]
fn refusals_name_the_record_and_its_place() {
    let folder = Folder::new("settings_refused");
    folder.write("out", b"as it was");
    let asked = "50: not a settings file of the form asked for";
    let long = "51: a time is longer than the old form can hold";
    for (command, file, words, about) in [
        ("widen", NEW, asked, "record 1 at byte 0 has the mark S2 and not S1"),
        ("narrow", OLD, asked, "record 1 at byte 0 has the mark S1 and not S2"),
        ("widen", &OLD[..11], asked, "record 2 at byte 6 is cut off after 5 of 6 bytes"),
        (
            "narrow",
            b"S2\0\x07\0\0\0\x01S2\0\x08\0\x01\0\0S2\0\x09\xFF\0\0\0",
            long,
            "record 2 at byte 8, key 8, has 65536 s (18:12:16)",
        ),
    ] {
        folder.write("times", file);
        for words_of in [&["settings", command, "times", "out"][..], &["settings", command, "times"]] {
            assert_eq!(folder.fails(1, words_of), format!("pfs: times: {words}: {about}\n"));
        }
    }
    assert_eq!(folder.read("out"), b"as it was");
}

#[test]
fn what_is_of_neither_form_is_not_shown() {
    let folder = Folder::new("settings_neither");
    for (file, form, about) in [
        (&OLD[..8], "old", "record 2 at byte 6 is cut off after 2 of 6 bytes"),
        (b"S2\0\x07\0\0\0\0S2\0\x07\0\0\0\0", "new", "record 2 at byte 8 has key 7, which is not above 7"),
        (b"\xFFx", "old", "record 1 at byte 0 has the mark \\xffx and not S1"),
    ] {
        folder.write("times", file);
        let error =
            format!("pfs: times: 50: a settings file of neither form: read in the {form} form, {about}\n");
        assert_eq!(folder.fails(1, &["settings", "show", "times"]), error);
    }
}

#[test]
fn bad_usage() {
    let folder = Folder::new("settings_usage");
    folder.write("times", OLD);
    for words in [
        &["settings"][..],
        &["settings", "show"],
        &["settings", "stretch", "times"],
        &["settings", "show", "times", "out"],
        &["settings", "widen", "times", "out", "more"],
        &["settings", "widen", "missing"],
        &["settings", "widen", "times", "missing/out"],
        &["settings", "widen", "times", "."],
        &["settings", "widen", "-"],
        &["settings", "widen", "times", "-"],
    ] {
        folder.fails(2, words);
    }
    let help = folder.done(&["settings", "--help"]);
    assert!(help.starts_with("usage: pfs settings widen|narrow|show FILE [OUT]\n"), "{help}");
    assert!(help.contains("65,535 s, which is 18:12:15"), "{help}");
}
