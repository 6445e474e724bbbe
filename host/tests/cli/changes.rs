//! The commands that change a disk.

use std::fs;

use crate::folder::Folder;

#[test]
fn format_has_sane_defaults() {
    let folder = Folder::new("format");
    for (name, options, blocks, free) in [
        ("a.adf", &[][..], 1_760, 1_754),
        ("b.adf", &["--blocks", "5"], 5, 0),
        ("c.adf", &["--blocks=65535"], 65_535, 65_489),
        ("d.adf", &["--blocks", "100", "--reserved", "20", "--anode-blocks", "3", "--name", "x"], 100, 93),
    ] {
        assert_eq!(folder.done(&[&["format", name][..], options].concat()), "");
        assert_eq!(folder.read(name).len(), blocks * 512);
        let info = folder.done(&["info", name]);
        assert!(info.contains(&format!("free blocks     {free}\n")), "{info}");
    }
    // The name comes from the file, the last reserved block is 63, and two blocks hold anodes.
    let image = folder.read("a.adf");
    assert_eq!(image[1024 + 20..1024 + 22], [1, b'a']);
    assert_eq!(image[1024 + 54..1024 + 56], [0, 63]);
    assert_eq!(image[1024 + 96..1024 + 102], [0, 3, 0, 4, 0, 0]);
    assert!(image[1024 + 12..1024 + 14] > [0, 0][..], "the stamp is the clock's");
}

#[test]
fn format_replaces_a_disk_only_by_force() {
    let folder = Folder::with_disk("format_force");
    folder.fails(2, &["format", "disk.adf"]);
    folder.fails(1, &["format", "disk.adf", "--force", "--name", ""]);
    folder.fails(1, &["format", "new.adf", "--blocks", "4"]);
    folder.fails(1, &["format", "new.adf", "--anode-blocks", "43"]);
    folder.write("small.adf", &[0xEE; 20 * 512]);
    folder.done(&["format", "small.adf", "--force", "--date=1978-01-02T00:03"]);
    let image = folder.read("small.adf");
    assert_eq!((image.len(), &image[1024 + 12..1024 + 18]), (20 * 512, &[0, 1, 0, 3, 0, 0][..]));
    assert_eq!(folder.done(&["check", "small.adf"]), ACCEPTED);
}

/// What check says of a sound disk.
const ACCEPTED: &str = "0: accepted
The bytes inside files are not checked: the disk holds nothing to check them by.
";

#[test]
fn put_makes_replaces_and_finds_its_place() {
    let folder = Folder::with_disk("put");
    folder.write("long", &[b'x'; 1_500]);
    folder.done(&["put", "disk.adf", "long"]);
    folder.done(&["put", "disk.adf", "long", "recipes/"]);
    folder.done(&["put", "disk.adf", "long", "--as", "recipes/other"]);
    assert_eq!(folder.done(&["tree", "disk.adf"]).lines().filter(|line| line.ends_with("1500")).count(), 3);
    // A file that is there stays, unless it is to be replaced: as a whole, or its bytes alone.
    let pack7 = ["put", "disk.adf", "long", "--as", "recipes/pack7"];
    let there = "pfs: disk.adf: recipes/pack7: 23: the name is already there: --force replaces it\n";
    assert_eq!(folder.fails(1, &pack7), there);
    folder.done(&[&pack7[..], &["--keep"]].concat());
    let kept = "file       1500  ----rwe-  2024-07-18 10:01:02.00 UTC  pack7  \"white bread\"\n";
    assert_eq!(folder.done(&["ls", "disk.adf", "recipes/pack7"]), kept);
    assert_eq!(folder.done(&["cat", "disk.adf", "recipes/pack7"]), "x".repeat(1_500));
    folder.fails(2, &[&pack7[..], &["--keep", "--comment", "another"]].concat());
    folder.date("pack7", 1_700_000_000);
    folder.done(&["put", "disk.adf", "pack7", "recipes/", "--force"]);
    let new = "file         14  ----rwed  2023-11-14 22:13:20.00 UTC  pack7\n";
    assert_eq!(folder.done(&["ls", "disk.adf", "recipes/pack7"]), new);
    assert_eq!(folder.done(&["cat", "disk.adf", "recipes/pack7"]), "180 C, 25 min\n");
    // No directory is replaced by a file.
    let error = folder.fails(1, &["put", "disk.adf", "pack7", "--as", "recipes", "--force"]);
    assert_eq!(error, "pfs: disk.adf: recipes: 24: it is a directory, and a file is needed\n");
    assert_eq!(folder.names(), ["disk.adf", "long", "pack7"], "no temporary file stays");
}

/// Two files without a directory behind them never become one under the other's name.
#[test]
fn several_files_go_into_a_directory_or_none_goes() {
    let folder = Folder::with_disk("put_several");
    folder.write("a", b"one");
    folder.write("b", b"two");
    for words in [
        &["put", "disk.adf", "a", "b"][..],
        &["put", "disk.adf", "a", "b", "pack7"],
        &["put", "disk.adf", "a", "nowhere/"],
        &["put", "disk.adf", "a", "b", "recipes/pack7"],
        &["put", "disk.adf", "a", "b", "--as", "c"],
        &["put", "disk.adf", "a", "--as", "/"],
        &["put", "disk.adf", "a", "missing", "recipes/"],
    ] {
        folder.fails(2, words);
    }
    // The second is there already, so the first does not come either.
    folder.done(&["put", "disk.adf", "b"]);
    assert!(folder.fails(1, &["put", "disk.adf", "a", "b", "/"]).starts_with("pfs: disk.adf: b: 23: "));
    // A directory of the disk whose name is here too must be said to be one.
    folder.write("recipes", b"three");
    folder.fails(2, &["put", "disk.adf", "a", "b", "recipes"]);
    folder.done(&["put", "disk.adf", "a", "b", "recipes/"]);
    assert_eq!(
        folder.done(&["tree", "disk.adf"]),
        "/\n  recipes/\n    pack7  14\n    a  3\n    b  3\n  b  3\n"
    );
    assert_eq!(folder.done(&["cat", "disk.adf", "recipes/b"]), "two");
}

#[test]
fn files_keep_their_dates() {
    let folder = Folder::with_disk("dates");
    folder.date("pack7", 1_700_000_000);
    folder.done(&["put", "disk.adf", "pack7"]);
    assert!(folder.done(&["ls", "disk.adf", "pack7"]).contains("  2023-11-14 22:13:20.00 UTC  "));
    folder.done(&["get", "disk.adf", "pack7", "copy"]);
    assert_eq!(folder.dated("copy"), 1_700_000_000_000);
    folder.done(&["get", "disk.adf", "recipes/pack7", "other"]);
    assert_eq!(folder.dated("other"), 1_721_296_862_000);
    // Neither way, if that is asked for.
    folder.done(&["get", "disk.adf", "pack7", "fresh", "--no-times"]);
    assert!(folder.dated("fresh") > 1_700_000_000_000);
    folder.done(&["put", "disk.adf", "pack7", "--no-times", "--force"]);
    assert!(!folder.done(&["ls", "disk.adf", "pack7"]).contains("2023-11-14"));
    // A date that no stamp has is told, and not changed into another.
    folder.date("pack7", 0);
    let error = folder.fails(2, &["put", "disk.adf", "pack7", "--force"]);
    assert!(error.contains("its date is before 1978-01-01 or after 2157-06-06; give --date"), "{error}");
    folder.done(&["put", "disk.adf", "pack7", "--force", "--date", "1978-01-01"]);
}

#[test]
fn put_reads_standard_input() {
    let folder = Folder::with_disk("put_input");
    let run = folder.run_with_input(&["put", "disk.adf", "-", "--as", "recipes/piped"], b"from a pipe");
    assert_eq!((run.status, run.errors.as_str()), (0, ""));
    assert_eq!(folder.done(&["cat", "disk.adf", "recipes/piped"]), "from a pipe");
    folder.write("empty", b"");
    folder.done(&["put", "disk.adf", "empty", "--as=recipes/piped", "--force"]);
    assert_eq!(folder.done(&["cat", "disk.adf", "recipes/piped"]), "");
    folder.fails(2, &["put", "disk.adf", "-", "recipes"]);
    folder.fails(2, &["put", "disk.adf", "-"]);
}

#[test]
fn names_of_any_bytes() {
    let folder = Folder::with_disk("names");
    let odd = "K\u{e4}se \\x1b[31m\\xff\\\\";
    folder.done(&["put", "disk.adf", "pack7", "--as", odd]);
    let tree = folder.done(&["tree", "disk.adf"]);
    assert!(tree.ends_with(&format!("\n  \"{odd}\"  14\n")), "{tree}");
    assert_eq!(folder.done(&["cat", "disk.adf", odd]), "180 C, 25 min\n");
    folder.fails(2, &["get", "disk.adf", odd]);
    folder.fails(2, &["cat", "disk.adf", "a\\b"]);
    folder.done(&["put", "disk.adf", "pack7", "--as", "--odd"]);
    assert_eq!(folder.done(&["cat", "disk.adf", "--", "--odd"]), "180 C, 25 min\n");
    // A name of the disk never leads out of this folder.
    folder.done(&["put", "disk.adf", "pack7", "--as", ".."]);
    folder.fails(2, &["get", "disk.adf", ".."]);
}

#[cfg(unix)]
#[test]
fn comments_of_any_bytes() {
    use std::os::unix::ffi::OsStrExt;
    let folder = Folder::with_disk("comments");
    let words = [&b"--comment=a=\xff"[..], b"--date=1978-01-01"].map(std::ffi::OsStr::from_bytes);
    let output = folder.command(&["mkdir", "disk.adf", "new"]).args(words).output().expect("it runs");
    assert_eq!((output.status.code(), output.stderr), (Some(0), Vec::new()));
    let line = "dir           -  ----rwed  1978-01-01 00:00:00.00 UTC  new  \"a=\\xff\"";
    assert_eq!(folder.done(&["ls", "disk.adf"]).lines().last(), Some(line));
}

#[test]
fn mkdir_resize_and_rm() {
    let folder = Folder::with_disk("mkdir_resize_rm");
    folder.done(&[
        "mkdir",
        "disk.adf",
        "a",
        "--comment",
        "one",
        "--date",
        "1978-01-01",
        "--protection",
        "240",
    ]);
    assert_eq!(
        folder.done(&["ls", "disk.adf"]).lines().last(),
        Some("dir           -  hsparwed  1978-01-01 00:00:00.00 UTC  a  \"one\"")
    );
    folder.done(&["mkdir", "disk.adf", "a/b"]);
    folder.done(&["resize", "disk.adf", "recipes/pack7", "600"]);
    let content = folder.done(&["cat", "disk.adf", "recipes/pack7"]);
    assert_eq!(content, format!("180 C, 25 min\n{}", "\0".repeat(586)));
    folder.done(&["resize", "disk.adf", "recipes/pack7", "5"]);
    assert_eq!(folder.done(&["cat", "disk.adf", "recipes/pack7"]), "180 C");
    for path in ["recipes/pack7", "recipes", "a/b", "a"] {
        folder.done(&["rm", "disk.adf", path]);
    }
    assert_eq!(folder.done(&["tree", "disk.adf"]), "/\n");
    assert!(folder.done(&["info", "disk.adf"]).contains("free blocks     1754\n"));
}

/// How the disk of `pfsinfo_files` was made, byte for byte.
#[test]
fn a_stored_disk_is_made_by_these_commands() {
    let folder = Folder::new("stored");
    folder.write("pack7", b"cool to 2.5 C, hold 40 min\n");
    folder.write("pack6", &[b'7'; 1_300]);
    for words in [
        "format disk.adf --blocks 48 --reserved 15 --anode-blocks 1 --name bench",
        "mkdir disk.adf recipes",
        "mkdir disk.adf recipes/old",
        "put disk.adf pack7 recipes --comment line3",
        "put disk.adf pack6 recipes/old",
    ] {
        let words: Vec<&str> = words.split(' ').chain(["--date", "2026-11-15T21:07:50"]).collect();
        folder.done(&words);
    }
    assert!(folder.read("disk.adf") == include_bytes!("../../../crates/pfsinfo_files/stdin"));
}

#[cfg(unix)]
#[test]
fn permissions_and_links_stay() {
    use std::os::unix::fs::{symlink, PermissionsExt};
    let folder = Folder::with_disk("permissions");
    fs::set_permissions(folder.path("disk.adf"), fs::Permissions::from_mode(0o640)).expect("the mode is set");
    symlink("disk.adf", folder.path("link.adf")).expect("the link is made");
    folder.done(&["mkdir", "link.adf", "new"]);
    assert!(fs::symlink_metadata(folder.path("link.adf")).expect("it is there").is_symlink());
    let metadata = fs::metadata(folder.path("disk.adf")).expect("it is there");
    assert_eq!(metadata.permissions().mode() & 0o777, 0o640);
    assert!(folder.done(&["tree", "disk.adf"]).contains("  new/\n"));
}

/// The owner stays too. Only root can give a file away; anybody else keeps their own.
#[cfg(unix)]
#[test]
fn the_owner_stays() {
    use std::os::unix::fs::{chown, MetadataExt};
    let folder = Folder::with_disk("owner");
    let owner = |name: &str| {
        let metadata = fs::metadata(folder.path(name)).expect("it is there");
        (metadata.uid(), metadata.gid())
    };
    let _ = chown(folder.path("disk.adf"), Some(12_345), Some(23_456));
    let before = owner("disk.adf");
    folder.done(&["mkdir", "disk.adf", "new"]);
    assert_eq!(owner("disk.adf"), before);
}

/// What a command left that was killed is gone after the next one.
#[test]
fn temporary_files_of_killed_commands_are_swept() {
    let folder = Folder::with_disk("swept");
    folder.write(".pfs-4000000-0.tmp", b"half a disk");
    folder.write(".pfs-notes", b"not ours");
    folder.done(&["mkdir", "disk.adf", "new"]);
    assert_eq!(folder.names(), [".pfs-notes", "disk.adf", "pack7"]);
}

#[cfg(unix)]
#[test]
fn a_link_that_leads_nowhere_is_replaced_only_by_force() {
    let folder = Folder::with_disk("nowhere");
    std::os::unix::fs::symlink("nowhere", folder.path("link")).expect("the link is made");
    folder.fails(2, &["format", "link"]);
    folder.fails(2, &["get", "disk.adf", "recipes/pack7", "link"]);
    folder.done(&["get", "disk.adf", "recipes/pack7", "link", "--force"]);
    assert_eq!(folder.read("link"), b"180 C, 25 min\n");
}

#[test]
fn changes_of_one_disk_at_the_same_time_are_all_kept() {
    let folder = Folder::with_disk("together");
    let names: Vec<String> = (0..24).map(|i| format!("record{i:02}")).collect();
    let commands: Vec<_> = names.iter().map(|name| vec!["put", "disk.adf", "pack7", "--as", name]).collect();
    for run in folder.run_together(&commands) {
        assert_eq!((run.status, run.errors.as_str()), (0, ""));
    }
    let tree = folder.done(&["tree", "disk.adf"]);
    for name in &names {
        assert!(tree.contains(&format!("{name}  14\n")), "{name} is lost: {tree}");
    }
    assert_eq!(folder.done(&["check", "disk.adf"]), ACCEPTED);
    assert_eq!(folder.names(), ["disk.adf", "pack7"], "no temporary file stays");
}

/// Each disk is held by itself, and no command sweeps away what another one is still writing.
#[test]
fn changes_of_several_disks_at_the_same_time_are_all_kept() {
    let folder = Folder::with_disk("several_together");
    let disks: Vec<String> = (0..8).map(|i| format!("disk{i}.adf")).collect();
    for disk in &disks {
        folder.write(disk, &folder.read("disk.adf"));
    }
    let names: Vec<String> = (0..5).map(|i| format!("record{i}")).collect();
    let pairs = names.iter().flat_map(|name| disks.iter().map(move |disk| (name, disk)));
    let commands: Vec<_> =
        pairs.map(|(name, disk)| vec!["put", disk.as_str(), "pack7", "--as", name.as_str()]).collect();
    for run in folder.run_together(&commands) {
        assert_eq!((run.status, run.errors.as_str()), (0, ""));
    }
    for disk in &disks {
        assert_eq!(folder.done(&["ls", disk, "record?"]).lines().count(), 5, "{disk}");
    }
    assert_eq!(folder.names().len(), 10, "no temporary file stays");
}
