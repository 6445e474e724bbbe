//! Names that look alike: a disk takes the capitals A to Z for small letters.

use std::fs;

use crate::folder::Folder;

/// What is said of a disk that has two of them in one directory.
const ALIKE: &str =
    "17: two entries of a directory have the same name, capitals A to Z counted as small letters";

/// A folder with a sound disk, and one whose directory has the files pack7 and PACK7.
fn with_damage(name: &str) -> Folder {
    let folder = Folder::with_disk(name);
    folder.done(&["put", "disk.adf", "pack7", "--as", "recipes/pack8"]);
    let mut image = folder.read("disk.adf");
    let name = image.windows(5).position(|bytes| bytes == b"pack8").expect("the name is there");
    image[name..name + 5].copy_from_slice(b"PACK7");
    folder.write("damaged.adf", &image);
    folder
}

#[test]
fn check_tells_two_names_that_look_alike() {
    let folder = with_damage("alike_check");
    let run = folder.run(&["check", "damaged.adf"]);
    assert_eq!((run.status, run.out, run.errors), (3, format!("{ALIKE}\n"), String::new()));
    let run = folder.run(&["check", "--where", "damaged.adf"]);
    let place = "  recipes/PACK7, at byte 50 of block 6, has the name of recipes/pack7, at byte 16 of block 6, capitals counted as small letters";
    assert_eq!(run.out.lines().nth(1), Some(place));
    for words in [
        &["info", "damaged.adf"][..],
        &["ls", "damaged.adf", "recipes"],
        &["cat", "damaged.adf", "recipes/pack7"],
        &["rm", "damaged.adf", "recipes/PACK7"],
        &["get", "-r", "damaged.adf", "recipes", "copy"],
        &["put", "damaged.adf", "pack7"],
    ] {
        let error = folder.fails(3, words);
        assert!(error.ends_with(&format!(": {ALIKE}\n")), "{error}");
    }
    let report = folder.done(&["report", "disk.adf", "damaged.adf"]);
    assert!(report.contains(&format!("\ndamaged.adf {ALIKE}\n")), "{report}");
    assert!(report.contains("\nrefused          1\n  under 17       1\n"), "{report}");
    let json = folder.done(&["report", "--json", "damaged.adf"]);
    assert!(json.contains("\"answer\": 17, ") && json.contains("\"refused\": {\"17\": 1}"), "{json}");
}

#[test]
fn a_name_is_found_in_every_case() {
    let folder = Folder::with_disk("alike_found");
    let line = "file         14  ----rwe-  2024-07-18 10:01:02.00 UTC  pack7  \"white bread\"\n";
    for path in ["recipes", "RECIPES", "Recipes/Pack7", "RECIPES/pack?", "rec*/P*K7", "REC*/PACK7"] {
        assert_eq!(folder.done(&["ls", "disk.adf", path]), line, "{path}");
    }
    assert_eq!(folder.done(&["cat", "disk.adf", "RECIPES/PACK7", "recipes/pack7"]), "180 C, 25 min\n");
    // It comes here under the name that it has on the disk.
    fs::create_dir(folder.path("here")).expect("the folder is made");
    folder.done(&["get", "disk.adf", "RECIPES/PACK7", "here"]);
    assert_eq!(folder.read("here/pack7"), b"180 C, 25 min\n");
    // The name is there in every case, and a directory that is there is taken in every case.
    for words in [&["mkdir", "disk.adf", "RECIPES"][..], &["put", "disk.adf", "pack7", "--as", "Recipes"]] {
        let error = folder.fails(1, words);
        assert!(error.contains("ecipes: 23: ") || error.contains("RECIPES: 23: "), "{error}");
    }
    folder.done(&["mkdir", "-p", "disk.adf", "RECIPES/Old"]);
    folder.done(&["put", "disk.adf", "pack7", "reciPES/OLD/"]);
    let tree = "/\n  recipes/\n    pack7  14\n    Old/\n      pack7  14\n";
    assert_eq!(folder.done(&["tree", "disk.adf"]), tree);
    // Bytes that are no letters A to Z are as they are.
    folder.done(&["put", "disk.adf", "pack7", "--as", "a["]);
    folder.done(&["put", "disk.adf", "pack7", "--as", "a{"]);
    folder.done(&["put", "disk.adf", "pack7", "--as", "\u{c4}"]);
    folder.done(&["put", "disk.adf", "pack7", "--as", "\u{e4}"]);
    folder.fails(1, &["put", "disk.adf", "pack7", "--as", "A["]);
}

#[test]
fn put_replaces_a_name_in_another_case() {
    let folder = Folder::with_disk("alike_put");
    folder.write("long", &[b'x'; 1_500]);
    let put = ["put", "disk.adf", "long", "--as", "recipes/PACK7"];
    let there = "pfs: disk.adf: recipes/PACK7: 23: the name is already there: --force replaces it\n";
    assert_eq!(folder.fails(1, &put), there);
    // Kept, it keeps its name too; replaced, it has the new one.
    folder.done(&[&put[..], &["--keep"]].concat());
    let kept = "file       1500  ----rwe-  2024-07-18 10:01:02.00 UTC  pack7  \"white bread\"\n";
    assert_eq!(folder.done(&["ls", "disk.adf", "recipes"]), kept);
    folder.done(&[&put[..], &["--force", "--date", "1978-01-01"]].concat());
    let new = "file       1500  ----rwed  1978-01-01 00:00:00.00 UTC  PACK7\n";
    assert_eq!(folder.done(&["ls", "disk.adf", "recipes"]), new);
    folder.done(&["resize", "disk.adf", "recipes/pack7", "5"]);
    assert_eq!(folder.done(&["tree", "disk.adf"]), "/\n  recipes/\n    PACK7  5\n");
    folder.done(&["rm", "disk.adf", "Recipes/Pack7"]);
    assert_eq!(folder.done(&["tree", "disk.adf"]), "/\n  recipes/\n");
}

#[test]
fn a_name_is_changed_to_another_case() {
    let folder = Folder::with_disk("alike_mv");
    folder.done(&["mv", "disk.adf", "recipes/pack7", "RECIPES/Pack7"]);
    let line = "file         14  ----rwe-  2024-07-18 10:01:02.00 UTC  Pack7  \"white bread\"\n";
    assert_eq!(folder.done(&["ls", "disk.adf", "recipes"]), line);
    assert_eq!(
        folder.done(&["mv", "disk.adf", "recipes", "Recipes"]),
        "moved 1 file and 1 directory, 14 bytes\n"
    );
    assert_eq!(folder.done(&["tree", "disk.adf"]), "/\n  Recipes/\n    Pack7  14\n");
    // Nothing goes into itself or onto itself, whatever the case.
    for words in [
        &["mv", "disk.adf", "recipes/pack7", "RECIPES/Pack7"][..],
        &["mv", "disk.adf", "recipes/pack7", "RECIPES"],
        &["mv", "disk.adf", "recipes", "RECIPES/"],
        &["mv", "disk.adf", "recipes", "RECIPES/inside"],
        &["cp", "disk.adf", "recipes/pack7", "recipes/PACK7"],
        &["cp", "disk.adf", "recipes/pack7", "recipes/PACK7", "--force"],
        &["cp", "-r", "disk.adf", "recipes", "RECIPES"],
        // What is named twice is not taken twice.
        &["rm", "-r", "disk.adf", "recipes", "RECIPES/pack7"],
    ] {
        folder.fails(2, words);
    }
    folder.done(&["rm", "disk.adf", "recipes/pack7", "RECIPES/PACK7"]);
    assert_eq!(folder.done(&["tree", "disk.adf"]), "/\n  Recipes/\n");
}

/// Of two files whose names look alike neither is lost.
#[test]
fn two_names_that_look_alike_do_not_go_to_one_place() {
    let folder = Folder::with_disk("alike_twice");
    for inside in ["a", "b", "both", "here"] {
        fs::create_dir(folder.path(inside)).expect("the folder is made");
    }
    for (file, bytes) in [("a/x", b"one"), ("b/X", b"two"), ("both/x", b"one"), ("both/X", b"two")] {
        folder.write(file, bytes);
    }
    folder.done(&["put", "-r", "disk.adf", "a", "b", "/"]);
    for (words, name) in [
        (
            &["put", "disk.adf", "a/x", "b/X", "recipes/"][..],
            "X: two of that name cannot go to the same place",
        ),
        (&["mv", "disk.adf", "a/x", "b/X", "recipes"], "X: two of that name cannot go to the same place"),
        (&["cp", "disk.adf", "b/x", "a/X", "recipes"], "x: two of that name cannot go to the same place"),
        (
            &["put", "-r", "disk.adf", "both", "/"],
            "both: X: another name there is the same on a disk, capitals counted as small letters",
        ),
    ] {
        for words in [words.to_vec(), [words, &["--force"]].concat()] {
            assert_eq!(folder.fails(2, &words), format!("pfs: {name}\n"));
        }
    }
    // Here they are two names.
    folder.done(&["get", "disk.adf", "a/x", "b/x", "here"]);
    assert_eq!((folder.read("here/x"), folder.read("here/X")), (b"one".to_vec(), b"two".to_vec()));
}
