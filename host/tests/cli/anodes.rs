//! Disks whose anodes come to an end, and get more.

use crate::folder::Folder;

/// The lines of info that begin with this word.
fn told(folder: &Folder, word: &str) -> Vec<String> {
    let info = folder.done(&["info", "disk.adf"]);
    info.lines().filter(|line| line.starts_with(word)).map(str::to_string).collect()
}

#[test]
fn a_disk_with_one_anode_block_takes_a_hundred_files() {
    let folder = Folder::new("grown");
    std::fs::create_dir(folder.path("many")).expect("the folder is made");
    for number in 0..100 {
        folder.write(&format!("many/pack{number:03}"), b"180 C");
    }
    folder.done(&["format", "disk.adf", "--blocks", "300", "--reserved", "40", "--anode-blocks", "1"]);
    let before = ["anode blocks    1 of 42", "anodes          82", "anodes in use   4", "anodes free     75"];
    assert_eq!(told(&folder, "anode")[..4], before);
    // 295 blocks are free.
    assert_eq!(told(&folder, "anodes to come"), ["anodes to come  3362"]);
    assert_eq!(folder.done(&["put", "-r", "disk.adf", "many"]), "put 100 files and 1 directory, 500 bytes\n");
    // The files, the five blocks of the directory that they are in, and the four before.
    let after =
        ["anode blocks    2 of 42", "anodes          164", "anodes in use   109", "anodes free     52"];
    assert_eq!(told(&folder, "anode")[..4], after);
    assert!(folder.done(&["check", "disk.adf"]).starts_with("0: accepted\n"));
    let df = folder.done(&["df", "disk.adf"]);
    assert!(df.contains("\nanode blocks        2       1024    0.7%\n"), "{df}");
    assert!(
        df.ends_with("\nall               164 in 2 of 42 anode blocks\nto come          3280 in 40 more\n"),
        "{df}"
    );
    let owners = folder.done(&["map", "disk.adf", "--owners"]);
    assert_eq!(owners.matches("  A  anode blocks\n").count(), 2, "{owners}");
    // What was taken for anodes stays, but they are free again.
    folder.done(&["rm", "-r", "disk.adf", "many"]);
    assert_eq!(told(&folder, "anode blocks"), ["anode blocks    2 of 42"]);
}

/// 20 blocks, of which no anode is free: 73 files in a root directory of three blocks, which are full, and one of the files
/// has all other blocks.
fn full(name: &str) -> Folder {
    let folder = Folder::new(name);
    let names: Vec<String> = (0..73).map(|number| number.to_string()).collect();
    names.iter().for_each(|name| folder.write(name, b""));
    folder.done(&["format", "disk.adf", "--blocks", "20", "--reserved", "9", "--anode-blocks", "1"]);
    let names: Vec<&str> = names.iter().map(String::as_str).collect();
    folder.done(&[&["put", "disk.adf"][..], &names, &["/"]].concat());
    folder.done(&["resize", "disk.adf", "0", "6656"]);
    folder
}

#[test]
fn what_is_said_where_the_anodes_end() {
    let folder = full("no_anodes");
    folder.write("x", b"");
    assert_eq!(told(&folder, "anodes free"), ["anodes free     0"]);
    assert_eq!(told(&folder, "anodes to come"), ["anodes to come  0"]);
    let no_anode = "28: no anode is free, and the anode table cannot grow: each file, each directory and each piece of one needs an anode, all are in use, and no block is left for more of them";
    for words in [&["put", "disk.adf", "x"][..], &["mkdir", "disk.adf", "x"]] {
        assert_eq!(folder.fails(1, words), format!("pfs: disk.adf: x: {no_anode}\n"));
    }
    // A block that is free goes to the anodes, and then there is none for the entry.
    folder.done(&["resize", "disk.adf", "0", "6144"]);
    assert_eq!(told(&folder, "anodes to come"), ["anodes to come  82"]);
    let error = folder.fails(1, &["mkdir", "disk.adf", "x"]);
    assert_eq!(error, "pfs: disk.adf: x: 27: not enough blocks are free: a directory needs 1 block, and 1 more if its parent has no room for the entry, and 1 for more anodes; 1 free\n");
    let error = folder.fails(1, &["put", "disk.adf", "x"]);
    assert_eq!(error, "pfs: disk.adf: x: 27: not enough blocks are free: the directory needs 1 block more for the entry, and 1 for more anodes; 1 free\n");
}

#[test]
fn what_is_said_of_a_file_that_cannot_grow_for_lack_of_anodes() {
    let folder = full("no_anodes_for_a_file");
    // 8 and 9 are free, and file 1 gets 8. Then 9 is not behind 7, file 0's last block, and needs an anode.
    folder.done(&["resize", "disk.adf", "0", "5632"]);
    folder.done(&["resize", "disk.adf", "1", "512"]);
    let error = folder.fails(1, &["resize", "disk.adf", "0", "6144"]);
    assert!(error.ends_with(", all are in use, and no block is left for more of them\n"), "{error}");
    // With 7 free too, that one goes to the anodes.
    folder.done(&["resize", "disk.adf", "0", "5120"]);
    let error = folder.fails(1, &["resize", "disk.adf", "0", "6144"]);
    assert_eq!(error, "pfs: disk.adf: 0: 27: not enough blocks are free: 2 blocks more needed and 1 for more anodes, 2 free\n");
    folder.done(&["resize", "disk.adf", "0", "5632"]);
    assert_eq!(told(&folder, "anode blocks"), ["anode blocks    2 of 42"]);
}
