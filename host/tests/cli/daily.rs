//! Several files and whole directories at a time.

use std::fs;
use std::process::Stdio;

use crate::folder::Folder;

/// A folder with files and folders in it, one of them empty.
fn with_tree(name: &str) -> Folder {
    let folder = Folder::new(name);
    for inside in ["line3", "line3/old", "line3/empty"] {
        fs::create_dir(folder.path(inside)).expect("the folder is made");
    }
    for (file, bytes) in
        [("line3/pack7", &b"180 C"[..]), ("line3/old/pack6", b"170 C"), ("line3/old/long", &[7; 3_000])]
    {
        folder.write(file, bytes);
        folder.date(file, 1_700_000_000);
    }
    for inside in ["line3/old", "line3/empty", "line3"] {
        folder.date(inside, 1_600_000_000);
    }
    folder.done(&["format", "disk.adf"]);
    folder
}

const TREE: &str = "/
  line3/
    empty/
    old/
      long  3000
      pack6  5
    pack7  5
";

#[test]
fn a_folder_goes_to_the_disk_and_back() {
    let folder = with_tree("tree");
    assert_eq!(
        folder.done(&["put", "-r", "disk.adf", "line3"]),
        "put 3 files and 3 directories, 3010 bytes\n"
    );
    assert_eq!(folder.done(&["tree", "disk.adf"]), TREE);
    fs::create_dir(folder.path("back")).expect("the folder is made");
    let got = "got 3 files and 3 directories, 3010 bytes\n";
    assert_eq!(folder.done(&["get", "-r", "disk.adf", "line3", "back"]), got);
    assert_eq!(folder.done(&["get", "-r", "disk.adf", "line3", "copy"]), got);
    for top in ["back/line3", "copy"] {
        for (file, bytes) in [("pack7", &b"180 C"[..]), ("old/pack6", b"170 C"), ("old/long", &[7; 3_000])] {
            assert_eq!(folder.read(&format!("{top}/{file}")), bytes);
            assert_eq!(folder.dated(&format!("{top}/{file}")), 1_700_000_000_000);
        }
        for inside in ["", "/old", "/empty"] {
            assert!(folder.path(&format!("{top}{inside}")).is_dir());
            assert_eq!(folder.dated(&format!("{top}{inside}")), 1_600_000_000_000);
        }
    }
    // Again it is refused, and forced it is the same.
    folder.fails(2, &["get", "-r", "disk.adf", "line3", "back"]);
    folder.done(&["get", "-r", "disk.adf", "line3", "back", "--force"]);
    folder.fails(1, &["put", "-r", "disk.adf", "line3"]);
    folder.done(&["put", "-r", "disk.adf", "line3", "--force"]);
    assert_eq!(folder.done(&["tree", "disk.adf"]).lines().count(), 7);
    // Without -r a folder is no file, and a directory is none.
    folder.fails(2, &["put", "disk.adf", "line3", "--as", "x"]);
    folder.fails(1, &["get", "disk.adf", "line3", "x"]);
}

/// A file that does not fit leaves the disk without any of the others.
#[test]
fn all_of_a_folder_or_none() {
    let folder = with_tree("tree_full");
    folder.done(&["format", "small.adf", "--blocks", "12"]);
    let error = folder.fails(1, &["put", "-r", "small.adf", "line3"]);
    assert_eq!(
        error,
        "pfs: small.adf: line3/old/long: 27: not enough blocks are free: 6 blocks more needed, 4 free\n"
    );
    assert_eq!(folder.done(&["tree", "small.adf"]), "/\n");
}

#[cfg(unix)]
#[test]
fn a_link_is_not_followed() {
    let folder = with_tree("tree_link");
    std::os::unix::fs::symlink("..", folder.path("line3/up")).expect("the link is made");
    let error = folder.fails(2, &["put", "-r", "disk.adf", "line3"]);
    assert_eq!(error, "pfs: line3/up: neither a file nor a folder, so it cannot be copied\n");
}

#[test]
fn directories_are_made_and_removed_as_a_whole() {
    let folder = with_tree("whole");
    folder.done(&["mkdir", "disk.adf", "-p", "a/b/c", "a/d"]);
    folder.done(&["mkdir", "disk.adf", "-p", "a/b"]);
    folder.fails(1, &["mkdir", "disk.adf", "x/y"]);
    folder.done(&["put", "disk.adf", "line3/pack7", "a/b/c/"]);
    assert_eq!(folder.done(&["tree", "disk.adf"]), "/\n  a/\n    b/\n      c/\n        pack7  5\n    d/\n");
    folder.fails(1, &["rm", "disk.adf", "a"]);
    assert_eq!(folder.done(&["rm", "-r", "disk.adf", "a"]), "removed 1 file and 4 directories, 5 bytes\n");
    assert_eq!(folder.done(&["tree", "disk.adf"]), "/\n");
    assert!(folder.done(&["info", "disk.adf"]).contains("\nfree blocks     1754\n"));
}

#[test]
fn moved_and_copied_within_the_disk() {
    let folder = with_tree("moved");
    folder.done(&["put", "-r", "disk.adf", "line3", "--comment", "of line 3", "--protection", "rw"]);
    let line = folder.done(&["ls", "disk.adf", "line3/pack7"]);
    assert!(line.contains("  ----rw--  2023-11-14 22:13:20.00 UTC  pack7  \"of line 3\""), "{line}");
    // A new name, with all fields.
    folder.done(&["mv", "disk.adf", "line3/pack7", "pack8"]);
    assert_eq!(folder.done(&["ls", "disk.adf", "pack8"]), line.replace("pack7", "pack8"));
    // A directory with all that is in it, into another and under another name.
    folder.done(&["mkdir", "disk.adf", "store"]);
    assert_eq!(
        folder.done(&["mv", "disk.adf", "line3", "pack8", "store"]),
        "moved 3 files and 3 directories, 3010 bytes\n"
    );
    let moved = "/
  store/
    line3/
      empty/
      old/
        long  3000
        pack6  5
    pack8  5
";
    assert_eq!(folder.done(&["tree", "disk.adf"]), moved);
    assert_eq!(
        folder.done(&["cp", "-r", "disk.adf", "store/line3/old", "older"]),
        "copied 2 files and 1 directory, 3005 bytes\n"
    );
    // What is named twice is not taken twice.
    folder.fails(2, &["mv", "disk.adf", "store", "store/pack8", "older"]);
    folder.fails(2, &["rm", "-r", "disk.adf", "store", "store/*"]);
    assert_eq!(folder.output(&["cat", "disk.adf", "older/long"]), [7; 3_000]);
    assert_eq!(
        folder.done(&["ls", "disk.adf", "older"]),
        folder.done(&["ls", "disk.adf", "store/line3/old"])
    );
    // What is there stays, unless it is to be replaced.
    folder.fails(1, &["cp", "disk.adf", "store/pack8", "older/long"]);
    folder.done(&["cp", "disk.adf", "store/pack8", "older/long", "--force"]);
    assert_eq!(folder.done(&["cat", "disk.adf", "older/long"]), "180 C");
    folder.done(&["mv", "disk.adf", "older/pack6", "older/long", "--force"]);
    assert_eq!(folder.done(&["cat", "disk.adf", "older/*"]), "170 C");
    assert!(folder.done(&["check", "disk.adf"]).starts_with("0: accepted\n"));
}

/// Of two files with one name that go to one place neither is lost.
#[test]
fn two_of_a_name_do_not_go_to_one_place() {
    let folder = with_tree("twice");
    folder.write("pack7", b"another");
    fs::create_dir(folder.path("here")).expect("the folder is made");
    folder.done(&["put", "-r", "disk.adf", "line3"]);
    folder.done(&["mkdir", "disk.adf", "store"]);
    folder.done(&["put", "disk.adf", "pack7"]);
    for words in [
        &["put", "disk.adf", "pack7", "line3/pack7", "store/"][..],
        &["get", "disk.adf", "pack7", "line3/pack7", "here"],
        &["mv", "disk.adf", "pack7", "line3/pack7", "store"],
        &["cp", "disk.adf", "pack7", "line3/pack7", "store"],
    ] {
        for words in [words.to_vec(), [words, &["--force"]].concat()] {
            let error = folder.fails(2, &words);
            assert_eq!(error, "pfs: pack7: two of that name cannot go to the same place\n");
        }
    }
    assert_eq!(fs::read_dir(folder.path("here")).expect("it is there").count(), 0);
}

/// A disk without a free block can still have its files moved.
#[test]
fn a_full_disk_can_be_put_in_order() {
    let folder = Folder::new("order");
    folder.write("fourteen", &[1; 14 * 512]);
    folder.done(&["format", "disk.adf", "--blocks", "20"]);
    folder.done(&["mkdir", "disk.adf", "d"]);
    folder.done(&["put", "disk.adf", "fourteen"]);
    assert!(folder.done(&["info", "disk.adf"]).contains("\nfree blocks     0\n"));
    folder.done(&["mv", "disk.adf", "fourteen", "d"]);
    assert_eq!(folder.done(&["tree", "disk.adf"]), "/\n  d/\n    fourteen  7168\n");
    folder.fails(1, &["cp", "disk.adf", "d/fourteen", "copy"]);
}

#[test]
fn wildcards_stand_for_names() {
    let folder = Folder::new("wildcards");
    folder.done(&["format", "disk.adf"]);
    folder.done(&["mkdir", "disk.adf", "line3", "line4", "notes"]);
    for (name, bytes) in
        [("pack7", "7"), ("pack8", "8"), ("pack10", "10"), ("K\u{e4}se", "k"), ("p*", "star")]
    {
        folder.write("file", bytes.as_bytes());
        for line in ["line3", "line4"] {
            folder.done(&[
                "put",
                "disk.adf",
                "file",
                "--as",
                &format!("{line}/{name}"),
                "--date",
                "1978-01-01",
            ]);
        }
    }
    assert_eq!(folder.done(&["cat", "disk.adf", "line?/pack?"]), "7878");
    assert_eq!(folder.done(&["cat", "disk.adf", "*3/pack*"]), "7810");
    assert_eq!(folder.done(&["cat", "disk.adf", "line3/K?se", "line3/K*"]), "k");
    // A name that is there just so is meant, and an escape is no wildcard.
    assert_eq!(folder.done(&["cat", "disk.adf", "line3/p*"]), "star");
    assert_eq!(folder.done(&["cat", "disk.adf", "line3/p\\x2a"]), "star");
    folder.fails(1, &["cat", "disk.adf", "line3/q\\x2a"]);
    let ls = folder.done(&["ls", "disk.adf", "line?/pack7"]);
    let names: Vec<&str> = ls.lines().filter_map(|line| line.rsplit("  ").next()).collect();
    assert_eq!(names, ["line3/pack7", "line4/pack7"]);
    // Several files go into a folder.
    folder.fails(2, &["get", "disk.adf", "line3/pack?", "here"]);
    fs::create_dir(folder.path("here")).expect("the folder is made");
    folder.done(&["get", "disk.adf", "line3/pack?", "here"]);
    assert_eq!((folder.read("here/pack7"), folder.read("here/pack8")), (b"7".to_vec(), b"8".to_vec()));
    folder.done(&["rm", "disk.adf", "line3/pack*", "line4/*"]);
    assert_eq!(
        folder.done(&["tree", "disk.adf"]),
        "/\n  line3/\n    K\u{e4}se  1\n    \"p*\"  4\n  line4/\n  notes/\n"
    );
}

#[test]
fn disks_and_files_through_pipes() {
    let folder = Folder::with_disk("pipes");
    let image = folder.read("disk.adf");
    for (words, out) in [
        (&["cat", "-", "recipes/pack7"][..], "180 C, 25 min\n"),
        (&["get", "-", "recipes/pack7", "-"], "180 C, 25 min\n"),
        (&["tree", "-"], "/\n  recipes/\n    pack7  14\n"),
    ] {
        let run = folder.run_with_input(words, &image);
        assert_eq!((run.status, run.out.as_str(), run.errors.as_str()), (0, out, ""));
    }
    assert!(folder.run_with_input(&["check", "-"], &image).out.starts_with("0: accepted\n"));
    assert_eq!(folder.run_with_input(&["check", "-"], &image[1..]).status, 3);
    folder.fails(2, &["rm", "-", "recipes/pack7"]);
}

/// What nobody reads is no error.
#[cfg(unix)]
#[test]
fn a_closed_pipe_is_quiet() {
    let folder = Folder::new("closed_pipe");
    folder.write("large", &[b'x'; 1 << 20]);
    folder.done(&["format", "disk.adf", "--blocks", "4000"]);
    folder.done(&["put", "disk.adf", "large"]);
    let mut child = folder
        .command(&["cat", "disk.adf", "large"])
        .stdout(Stdio::piped())
        .stderr(Stdio::piped())
        .spawn()
        .expect("the program runs");
    drop(child.stdout.take());
    let output = child.wait_with_output().expect("the program ends");
    assert_eq!((output.status.code(), output.stderr), (Some(0), Vec::new()));
}

/// As many files as a disk can have, put, listed, got and removed.
#[test]
fn thousands_of_files() {
    let folder = Folder::new("thousands");
    fs::create_dir(folder.path("many")).expect("the folder is made");
    for number in 0..3_200 {
        folder.write(&format!("many/record{number:04}"), format!("pack {number}\n").as_bytes());
    }
    folder.done(&["format", "disk.adf", "--blocks", "65535"]);
    assert!(folder.done(&["put", "-r", "disk.adf", "many"]).starts_with("put 3200 files and 1 directory, "));
    let ls = folder.done(&["ls", "disk.adf", "many"]);
    assert_eq!(ls.lines().count(), 3_200);
    assert!(folder
        .done(&["get", "-r", "disk.adf", "many", "back"])
        .starts_with("got 3200 files and 1 directory, "));
    for number in [0, 1_234, 3_199] {
        let bytes = format!("pack {number}\n").into_bytes();
        assert_eq!(folder.read(&format!("back/record{number:04}")), bytes);
    }
    assert_eq!(folder.done(&["cat", "disk.adf", "many/record3199"]), "pack 3199\n");
    assert!(folder
        .done(&["rm", "-r", "disk.adf", "many"])
        .starts_with("removed 3200 files and 1 directory, "));
    assert!(folder.done(&["info", "disk.adf"]).contains("\nfree blocks     65489\n"));
}
