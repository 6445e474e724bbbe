//! How two disks differ.

use std::fs;
use std::time::Instant;

use crate::folder::Folder;

/// A folder with a disk, and a copy of it that is called other.adf.
fn with_copy(name: &str) -> Folder {
    let folder = Folder::with_disk(name);
    folder.write("other.adf", &folder.read("disk.adf"));
    folder
}

/// What diff prints of two disks that differ.
fn differ(folder: &Folder, words: &[&str]) -> String {
    let run = folder.run(&[&["diff"], words].concat());
    assert_eq!((run.status, run.errors.as_str()), (1, ""), "{words:?}");
    run.out
}

#[test]
fn the_same_disk_has_no_difference() {
    let folder = with_copy("diff_same");
    assert_eq!(folder.done(&["diff", "disk.adf", "disk.adf"]), "");
    assert_eq!(folder.done(&["diff", "disk.adf", "other.adf"]), "");
    let json = "{\"first\": \"disk.adf\", \"second\": \"other.adf\", \"differences\": []}\n";
    assert_eq!(folder.done(&["diff", "--json", "disk.adf", "other.adf"]), json);
    // The same tree on a larger disk with another name, made in another order.
    folder.done(&["format", "large.adf", "--blocks", "3000", "--name", "large"]);
    folder.done(&["put", "large.adf", "pack7", "--as", "gone"]);
    folder.done(&["mkdir", "large.adf", "recipes", "--date", "2024-07-18T10:00"]);
    let words = ["--date", "2024-07-18T10:01:02", "--comment", "white bread", "--protection", "1"];
    folder.done(&[&["put", "large.adf", "pack7", "recipes/"][..], &words].concat());
    folder.done(&["rm", "large.adf", "gone"]);
    assert_eq!(folder.done(&["diff", "disk.adf", "large.adf"]), "");
}

#[test]
fn every_difference_in_words() {
    let folder = with_copy("diff_words");
    folder.write("long", &[b'x'; 600]);
    folder.write("longer", &[&[b'x'; 7][..], b"y", &[b'x'; 591], b"y", b"xxx"].concat());
    folder.write("poked", &[&[b'x'; 599][..], b"y"].concat());
    let date = ["--date", "2024-07-18T10:00"];
    for (disk, file, path) in [
        ("disk.adf", "long", "sizes"),
        ("other.adf", "longer", "sizes"),
        ("disk.adf", "long", "bytes"),
        ("other.adf", "poked", "bytes"),
        ("disk.adf", "pack7", "Recipes/only one"),
        ("other.adf", "pack7", "recipes/other"),
        ("disk.adf", "pack7", "kind"),
        ("disk.adf", "pack7", "Case"),
        ("other.adf", "pack7", "cASE"),
    ] {
        folder.done(&[&["put", disk, file, "--as", path][..], &date].concat());
    }
    folder.done(&[&["mkdir", "other.adf", "kind"][..], &date].concat());
    folder.done(&[&["put", "other.adf", "pack7", "--as", "kind/below"][..], &date].concat());
    let words =
        ["--date", "2024-07-19T10:01:02", "--comment", "\\x22rye\\x22", "--protection", "rw", "--force"];
    folder.done(&[&["put", "other.adf", "pack7", "recipes/"][..], &words].concat());
    let lines = "sizes: size 600, 603; 5 bytes differ from byte 7
bytes: 1 byte differs, byte 599
kind: file, directory
Case: name \"Case\", \"cASE\"
recipes/pack7: date 2024-07-18 10:01:02.00 UTC, 2024-07-19 10:01:02.00 UTC; protection ----rwe-, ----rw--; comment \"white bread\", \"\\x22rye\\x22\"
only in disk.adf: \"recipes/only one\"
only in other.adf: recipes/other
only in other.adf: kind/below
";
    assert_eq!(differ(&folder, &["disk.adf", "other.adf"]), lines);
    // The other way round the values change places, and the order is the other disk's.
    let other_way = differ(&folder, &["other.adf", "disk.adf"]);
    for line in [
        "sizes: size 603, 600; 5 bytes differ from byte 7\n",
        "kind: directory, file\n",
        "only in disk.adf: \"recipes/only one\"\n",
    ] {
        assert!(other_way.contains(line), "{other_way}");
    }
    assert!(other_way.ends_with("only in disk.adf: \"recipes/only one\"\n"), "{other_way}");
}

#[test]
fn every_difference_for_programs() {
    let folder = with_copy("diff_json");
    folder.done(&["resize", "other.adf", "recipes/pack7", "16"]);
    folder.done(&["mkdir", "disk.adf", "K\u{e4}se"]);
    folder.done(&["mkdir", "other.adf", "a b"]);
    let json = r#"{"first": "disk.adf", "second": "other.adf", "differences": [{"path": "Käse", "in": "first"}, {"path": "recipes/pack7", "in": "both", "size": [14, 16], "first_byte": 14, "bytes": 2}, {"path": "a b", "in": "second"}]}
"#;
    assert_eq!(differ(&folder, &["--json", "disk.adf", "other.adf"]), json);
    folder.done(&["rm", "other.adf", "recipes/pack7"]);
    let date = ["--date", "2024-07-18T10:01:03", "--comment", "rye", "--protection", "0"];
    folder.done(&[&["mkdir", "other.adf", "recipes/PACK7"][..], &date].concat());
    let json = r#"{"path": "recipes/pack7", "in": "both", "type": ["file", "dir"], "name": ["pack7", "PACK7"], "date_utc": ["2024-07-18T10:01:02.00Z", "2024-07-18T10:01:03.00Z"], "day": [17000, 17000], "minute": [601, 601], "tick": [100, 150], "protection": ["----rwe-", "----rwed"], "comment": ["white bread", "rye"]}"#;
    let out = differ(&folder, &["--json", "disk.adf", "other.adf"]);
    assert!(out.contains(json), "{out}");
}

/// Names of old machines, and names that could be taken for something else.
#[test]
fn names_are_shown_so_that_nothing_is_mistaken() {
    let folder = with_copy("diff_names");
    folder.done(&["mkdir", "disk.adf", "K\\xe4se", "size 1, 2; comment"]);
    let lines = "only in disk.adf: K\\xe4se\nonly in disk.adf: \"size 1, 2; comment\"\n";
    assert_eq!(differ(&folder, &["disk.adf", "other.adf"]), lines);
    let latin1 = lines.replace("\\xe4", "\u{e4}");
    assert_eq!(differ(&folder, &["--latin1", "disk.adf", "other.adf"]), latin1);
    folder.write("a disk", &folder.read("disk.adf"));
    assert_eq!(differ(&folder, &["other.adf", "a disk"]), lines.replace("disk.adf", "\"a disk\""));
}

#[test]
fn trouble_ends_with_2_and_names_the_disk() {
    let folder = with_copy("diff_trouble");
    let mut damaged = folder.read("disk.adf");
    damaged[1024] = b'X';
    folder.write("damaged.adf", &damaged);
    folder.write("cut.adf", &damaged[1..]);
    let words = "3: the disk type is not PFS\\0";
    for (first, second, error) in [
        ("damaged.adf", "disk.adf", format!("damaged.adf: {words}")),
        ("disk.adf", "damaged.adf", format!("damaged.adf: {words}")),
        ("damaged.adf", "cut.adf", format!("damaged.adf: {words}")),
        ("disk.adf", "cut.adf", String::from("cut.adf: 1: the image is not a whole number of 512-byte blocks, or has fewer than 5 or more than 65,535 of them")),
    ] {
        assert_eq!(folder.fails(2, &["diff", first, second]), format!("pfs: {error}\n"));
        assert_eq!(folder.fails(2, &["diff", "--json", first, second]), format!("pfs: {error}\n"));
    }
    for words in [["disk.adf", "gone.adf"], ["gone.adf", "disk.adf"]] {
        assert!(folder.fails(2, &[&["diff"][..], &words].concat()).starts_with("pfs: gone.adf: "));
    }
    for words in [&["diff"][..], &["diff", "disk.adf"], &["diff", "disk.adf", "disk.adf", "disk.adf"]] {
        assert_eq!(folder.fails(2, words), "pfs: usage: pfs diff DISK DISK [OPTIONS]\n");
    }
    folder.fails(2, &["diff", "disk.adf", "other.adf", "--where"]);
    folder.fails(2, &["diff", "-", "-"]);
    let run = folder.run_with_input(&["diff", "-", "other.adf"], &folder.read("disk.adf"));
    assert_eq!((run.status, run.out.as_str(), run.errors.as_str()), (0, "", ""));
}

/// Output that cannot be written is trouble, and disks that differ do so whether or not somebody reads how.
#[cfg(target_os = "linux")]
#[test]
fn the_status_does_not_hang_on_the_reader() {
    let folder = with_copy("diff_reader");
    folder.done(&["mkdir", "other.adf", "new"]);
    let full = || fs::File::options().write(true).open("/dev/full").expect("the device is there");
    for (second, status) in [("other.adf", 2), ("disk.adf", 0)] {
        let ran = folder.command(&["diff", "disk.adf", second]).stdout(full()).output();
        assert_eq!(ran.expect("the program runs").status.code(), Some(status), "{second}");
    }
    let (reader, writer) = std::io::pipe().expect("a pipe is made");
    drop(reader);
    let ran = folder.command(&["diff", "disk.adf", "other.adf"]).stdout(writer).output();
    let ran = ran.expect("the program runs");
    assert_eq!((ran.status.code(), ran.stderr), (Some(1), Vec::new()));
}

/// Two full disks of 33 MB with three thousand differences.
#[test]
fn large_disks_take_seconds() {
    let folder = Folder::new("diff_large");
    fs::create_dir(folder.path("many")).expect("the folder is made");
    for number in 0..3_000 {
        folder.write(&format!("many/record{number:04}"), &[number as u8; 9_000]);
    }
    folder.done(&["format", "first.adf", "--blocks", "65535"]);
    folder.done(&["put", "-r", "first.adf", "many", "--date", "2024-07-18"]);
    for number in 0..3_000 {
        folder.write(&format!("many/record{number:04}"), &[(number as u8).wrapping_add(1); 9_001]);
    }
    folder.done(&["format", "second.adf", "--blocks", "65535"]);
    folder.done(&["put", "-r", "second.adf", "many", "--date", "2024-07-18"]);
    let start = Instant::now();
    let lines = differ(&folder, &["first.adf", "second.adf"]);
    assert!(start.elapsed().as_secs() < 60, "{:?}", start.elapsed());
    println!("3,000 differences of two disks of 33 MB: {:?}", start.elapsed());
    assert_eq!(lines.lines().count(), 3_000);
    let line = "many/record0000: size 9000, 9001; 9001 bytes differ from byte 0";
    assert!(lines.lines().any(|other| other == line), "{line}");
}
