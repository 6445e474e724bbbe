//! What is refused, and that nothing changes then.

use crate::folder::Folder;

#[test]
fn refusals_end_with_1_and_say_which() {
    let folder = Folder::with_disk("refusals");
    for (words, number) in [
        (&["cat", "disk.adf", "recipes/pack8"][..], 22),
        (&["cat", "disk.adf", "nowhere/pack7"], 22),
        (&["ls", "disk.adf", "recipes/pack7/x"], 21),
        (&["cat", "disk.adf", "recipes"], 24),
        (&["rm", "disk.adf", "recipes"], 25),
        (&["rm", "disk.adf", "nothing"], 22),
        (&["mkdir", "disk.adf", "recipes"], 23),
        (&["mkdir", "disk.adf", "-p", "recipes/pack7/x"], 23),
        (&["rm", "disk.adf", "n*"], 22),
        (&["rm", "disk.adf", "recipes/pack7", "nothing"], 22),
        (&["cat", "disk.adf", "*/*/*"], 22),
        (&["cp", "disk.adf", "recipes", "copy"], 24),
        (&["mv", "disk.adf", "recipes/pack7", "nowhere/x"], 22),
        (&["get", "disk.adf", "recipes"], 24),
        (&["mkdir", "disk.adf", "a:b"], 20),
        (&["mkdir", "disk.adf", "nowhere/x"], 22),
        (&["mkdir", "disk.adf", "recipes/pack7/x"], 21),
        (&["resize", "disk.adf", "recipes", "5"], 24),
        (&["resize", "disk.adf", "recipes/pack7", "4294967296"], 27),
        (&["resize", "disk.adf", "recipes/pack7", "18446744073709551615"], 27),
        (&["put", "disk.adf", "pack7", "--as", "nowhere/x"], 22),
        (&["put", "disk.adf", "pack7", "--as", "recipes/pack7/x"], 21),
        (&["put", "disk.adf", "pack7", "--as", "a:b"], 20),
    ] {
        let error = folder.fails(1, words);
        assert!(error.contains(&format!(": {number}: ")), "{words:?}: {error}");
    }
}

#[test]
fn a_full_disk_is_left_byte_for_byte() {
    let folder = Folder::new("full");
    folder.write("ten", &[1; 10 * 512]);
    folder.write("eleven", &[2; 11 * 512]);
    // 20 blocks, of which 15 are free.
    folder.done(&["format", "disk.adf", "--blocks", "20", "--reserved", "9", "--anode-blocks", "1"]);
    folder.done(&["put", "disk.adf", "ten", "--as", "a"]);
    // Made, but not resized: nothing of it stays.
    let error = folder.fails(1, &["put", "disk.adf", "ten", "--as", "b"]);
    assert_eq!(error, "pfs: disk.adf: b: 27: not enough blocks are free: 10 blocks more needed, 5 free\n");
    folder.done(&["resize", "disk.adf", "a", "7680"]);
    folder.fails(1, &["resize", "disk.adf", "a", "7681"]);
    folder.fails(1, &["mkdir", "disk.adf", "d"]);
    // A file that is there can be replaced by a shorter one, but by no longer one than there is room for.
    folder.done(&["put", "disk.adf", "eleven", "--as", "a", "--force"]);
    folder.write("long", &[3; 16 * 512]);
    folder.fails(1, &["put", "disk.adf", "long", "--as", "a", "--force"]);
    assert_eq!(folder.done(&["cat", "disk.adf", "a"]).as_bytes(), [2; 11 * 512]);
    assert_eq!(folder.names(), ["disk.adf", "eleven", "long", "ten"]);
}

#[test]
fn bad_usage_ends_with_2() {
    let folder = Folder::with_disk("usage");
    for words in [
        &[][..],
        &["frobnicate", "disk.adf"],
        &["ls"],
        &["cat", "disk.adf"],
        &["resize", "disk.adf", "recipes/pack7"],
        &["resize", "disk.adf", "recipes/pack7", "-1"],
        &["resize", "disk.adf", "recipes/pack7", "18446744073709551616"],
        &["resize", "disk.adf", "recipes/pack7", "many"],
        &["ls", "disk.adf", "--long"],
        &["ls", "disk.adf", "-l"],
        &["ls"],
        &["mkdir", "-", "x"],
        &["resize", "disk.adf", "recipes/pack7", "99999999999999999M"],
        &["mkdir", "disk.adf", "x", "--protection", "rwx"],
        &["get", "disk.adf", "recipes/pack7", "nowhere/"],
        &["get", "-r", "disk.adf", "recipes", "-"],
        &["mv", "disk.adf", "recipes"],
        &["mv", "disk.adf", "recipes", "recipes/old"],
        &["mv", "disk.adf", "recipes", "recipes"],
        &["cp", "disk.adf", "recipes/pack7", "recipes/pack7"],
        &["mv", "disk.adf", "recipes", "recipes/pack7", "elsewhere"],
        &["mv", "disk.adf", "recipes", "elsewhere/"],
        &["rm", "disk.adf", "recipes/pack7", "/"],
        &["format", "new.adf", "--blocks"],
        &["format", "new.adf", "--blocks", "65536"],
        &["format", "new.adf", "--reserved", "x"],
        &["format", "new.adf", "--date", "1977-12-31"],
        &["put", "disk.adf", "pack7", "--as=x", "--protection", "256"],
        &["put", "disk.adf", "pack7", "--as=x", "--date", "2024-02-30"],
        &["rm", "disk.adf", "/"],
        &["mkdir", "disk.adf", ""],
    ] {
        folder.fails(2, words);
    }
}

#[test]
fn files_that_cannot_be_read_or_written_end_with_2() {
    let folder = Folder::with_disk("files");
    for words in [
        &["ls", "missing.adf"][..],
        &["check", "missing.adf"],
        &["check", "."],
        &["put", "disk.adf", "missing"],
        &["put", "missing.adf", "pack7"],
        &["get", "disk.adf", "recipes/pack7", "missing/file"],
        &["format", "missing/new.adf"],
    ] {
        folder.fails(2, words);
    }
}

#[test]
fn a_write_protected_file_is_not_replaced() {
    let folder = Folder::with_disk("protected");
    let mut permissions = std::fs::metadata(folder.path("disk.adf")).expect("it is there").permissions();
    permissions.set_readonly(true);
    std::fs::set_permissions(folder.path("disk.adf"), permissions).expect("it is protected");
    folder.done(&["format", "other.adf", "--blocks", "4000"]);
    for words in [
        &["mkdir", "disk.adf", "new"][..],
        &["format", "disk.adf", "--force"],
        &["get", "disk.adf", "recipes/pack7", "disk.adf", "--force"],
    ] {
        assert_eq!(folder.fails(2, words), "pfs: disk.adf: the file is write-protected\n");
    }
    // It is the file that is written that counts, not the one that is read.
    folder.done(&["get", "disk.adf", "recipes/pack7", "copy"]);
    folder.done(&["put", "other.adf", "disk.adf"]);
    assert_eq!(folder.fails(2, &["mkdir", ".", "new"]), "pfs: .: a folder and no file\n");
}

#[cfg(unix)]
#[test]
fn what_is_no_file_is_not_written() {
    let folder = Folder::with_disk("no_file");
    assert_eq!(folder.fails(2, &["mkdir", "/dev/null", "new"]), "pfs: /dev/null: not a regular file\n");
    assert_eq!(folder.fails(2, &["format", "/dev/null", "--force"]), "pfs: /dev/null: not a regular file\n");
}

#[test]
fn refusals_come_with_the_facts() {
    let folder = Folder::with_disk("facts");
    let (long, comment) = ("n".repeat(108), "c".repeat(80));
    for (words, facts) in [
        (&["mkdir", "disk.adf", &long][..], "the name has 108 bytes, and 107 are the most"),
        (&["mkdir", "disk.adf", "x", "--comment", &comment], "the comment has 80 bytes, and 79 are the most"),
        (&["put", "disk.adf", "pack7", "--as", "a:b"], "no name can have a ':'"),
        (&["resize", "disk.adf", "recipes/pack7", "1M"], "2047 blocks more needed, 1752 free"),
        (&["format", "new.adf", "--name", &long], "the disk's name has 108 bytes, and 31 are the most"),
        (&["format", "new.adf", "--reserved", "1760"], "last reserved is 1760, and must be 5 to 1759"),
    ] {
        let error = folder.fails(1, words);
        assert!(error.ends_with(&format!(": {facts}\n")), "{error}");
        assert!(error.starts_with("pfs: disk.adf: ") || error.starts_with("pfs: new.adf: "), "{error}");
    }
    // Sizes in units, and protection by letters.
    folder.done(&["resize", "disk.adf", "recipes/pack7", "10K"]);
    assert_eq!(folder.done(&["cat", "disk.adf", "recipes/pack7"]).len(), 10_240);
    folder.done(&["mkdir", "disk.adf", "x", "--protection", "hsparw"]);
    assert!(folder.done(&["ls", "disk.adf"]).contains("  hsparw--  "));
}

/// A file larger than any disk is refused without being read to its end.
#[cfg(unix)]
#[test]
fn a_file_without_end_is_refused() {
    let folder = Folder::with_disk("endless");
    let run = folder.run(&["check", "/dev/zero"]);
    assert_eq!((run.status, &run.out[..2]), (3, "1:"));
    assert!(folder.fails(1, &["put", "disk.adf", "/dev/zero"]).contains(": 27: "));
}

#[cfg(target_os = "linux")]
#[test]
fn output_that_cannot_be_written_ends_with_2() {
    let folder = Folder::with_disk("output");
    let full = std::fs::OpenOptions::new().write(true).open("/dev/full").expect("it is opened");
    let output = folder.command(&["ls", "disk.adf"]).stdout(full).output().expect("the program runs");
    assert_eq!(output.status.code(), Some(2));
    assert!(output.stderr.starts_with(b"pfs: standard output: "));
}
