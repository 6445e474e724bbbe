//! Safe changes, written in place, and killed at any moment.

use std::fs;
use std::time::{Duration, Instant};

use ovenknit_host::calls::{Stamp, BLOCK, ROOT};
use ovenknit_host::disk::{Disk, Error, Format, New};
use ovenknit_host::ffi::Proved;
use ovenknit_host::rng::{seeded, Rng};
use ovenknit_host::safe::Writes;

use crate::folder::Folder;

/// The number of the file under a name, which a file that takes its place has not.
#[cfg(unix)]
fn inode(folder: &Folder, name: &str) -> u64 {
    use std::os::unix::fs::MetadataExt;
    fs::metadata(folder.path(name)).expect("it is there").ino()
}

/// Each command leaves the same tree with the flag as without it, and the same file holds it.
#[cfg(unix)]
#[test]
fn safe_commands_leave_the_tree_of_the_others() {
    let folder = Folder::with_disk("safe_commands");
    folder.write("long", &[b'x'; 5_000]);
    folder.write("same", &[b'y'; 5_000]);
    folder.write("short", b"170 C");
    folder.write("empty", b"");
    fs::create_dir(folder.path("line3")).expect("the folder is made");
    folder.write("line3/pack1", &[b'1'; 600]);
    folder.write("line3/pack2", b"");
    folder.write("safe.adf", &folder.read("disk.adf"));
    let number = inode(&folder, "safe.adf");
    let date = ["--date", "2026-11-15T21:07:50"];
    for words in [
        &["mkdir", "DISK", "a", "--comment", "one", date[0], date[1]][..],
        &["mkdir", "DISK", "-p", "b/c/d", date[0], date[1]],
        &["mkdir", "DISK", "-p", "b/c/d"],
        &["put", "DISK", "long", "short", "empty", "a/", date[0], date[1]],
        &["put", "DISK", "same", "--as", "a/long", "--keep"],
        &["put", "DISK", "short", "--as", "a/long", "--keep"],
        &["put", "DISK", "long", "--as", "A/LONG", "--keep"],
        &["put", "DISK", "empty", "--as", "a/long", "--keep"],
        &["put", "DISK", "empty", "--as", "a/long", "--keep"],
        &["put", "DISK", "short", "--as", "b/new", "--keep"],
        &["put", "-r", "DISK", "line3", date[0], date[1]],
        &["resize", "DISK", "a/short", "3K"],
        &["resize", "DISK", "a/short", "700"],
        &["resize", "DISK", "a/short", "700"],
        &["rm", "DISK", "a/empty", "b/c/d"],
        &["rm", "-r", "DISK", "line3", "a"],
    ] {
        let on =
            |disk| words.iter().map(|&word| if word == "DISK" { disk } else { word }).collect::<Vec<&str>>();
        let said = folder.done(&on("disk.adf"));
        // Before the command, or behind it.
        let safe = if words.len() % 2 == 0 {
            [vec!["--safe"], on("safe.adf")]
        } else {
            [on("safe.adf"), vec!["--safe"]]
        };
        assert_eq!(folder.done(&safe.concat()), said, "{words:?}");
        assert_eq!(folder.done(&["diff", "disk.adf", "safe.adf"]), "", "{words:?}");
        assert_eq!(inode(&folder, "safe.adf"), number, "{words:?}");
    }
    let mut names = folder.names();
    names.retain(|name| name.ends_with(".adf") || name.starts_with('.'));
    assert_eq!(names, ["disk.adf", "safe.adf"], "no temporary file stays");
}

/// The bytes in the file are those that the library leaves.
#[test]
fn the_list_is_written_block_by_block() {
    let folder = Folder::with_disk("safe_bytes");
    let mut disk = Disk::<Proved>::new(folder.read("disk.adf"));
    folder.done(&["--safe", "mkdir", "disk.adf", "a", "--date", "1978-01-02T00:03"]);
    let stamp = Stamp::new(1, 3, 0);
    disk.safe_make(ROOT, &New { stamp, ..New::directory(b"a") }).expect("there is room");
    assert!(folder.read("disk.adf") == disk.image());
    let recipes = disk.find(ROOT, b"recipes").expect("it is there").anode;
    folder.write("new", b"175 C, 30 min\n");
    folder.done(&["put", "--safe", "disk.adf", "new", "--as", "recipes/pack7", "--keep"]);
    disk.safe_write(recipes, b"pack7", 0, b"175 C, 30 min\n").expect("there is room");
    assert!(folder.read("disk.adf") == disk.image(), "one change for the same size");
    folder.done(&["resize", "disk.adf", "recipes/pack7", "600", "--safe"]);
    disk.safe_resize(recipes, b"pack7", 600).expect("there is room");
    assert!(folder.read("disk.adf") == disk.image());
    folder.done(&["--safe", "rm", "disk.adf", "recipes/pack7"]);
    disk.safe_remove(recipes, b"pack7").expect("there is room");
    assert!(folder.read("disk.adf") == disk.image());
}

#[test]
fn refused_safe_changes_say_the_facts_and_write_nothing() {
    let folder = Folder::new("safe_refusals");
    folder.write("ten", &[1; 10 * 512]);
    folder.write("one", &[2; 512]);
    // 20 blocks, of which 15 are free, and one anode block.
    folder.done(&["format", "disk.adf", "--blocks", "20", "--reserved", "9", "--anode-blocks", "1"]);
    let few = |words: &[&str], needed: &str| {
        let error = folder.fails(1, words);
        let facts =
            format!("27: not enough blocks are free: a safe change needs {needed} at the same time, ");
        assert!(error.contains(&facts), "{error}");
        error
    };
    // A new file has its size before it is written anew, so that it must fit twice.
    few(&["--safe", "put", "disk.adf", "ten"], "11 blocks");
    folder.done(&["put", "disk.adf", "ten", "--as", "a"]);
    // 5 are free. The first file would come, but the second does not, so that neither does.
    let error = few(&["put", "--safe", "disk.adf", "one", "ten", "/"], "12 blocks");
    assert_eq!(error, "pfs: disk.adf: ten: 27: not enough blocks are free: a safe change needs 12 blocks at the same time, 4 free\n");
    few(&["--safe", "resize", "disk.adf", "a", "2560"], "7 blocks");
    few(&["--safe", "resize", "disk.adf", "a", "5120"], "11 blocks");
    few(&["--safe", "put", "disk.adf", "one", "--as", "a", "--keep"], "11 blocks");
    folder.done(&["resize", "disk.adf", "a", "7168"]);
    assert!(few(&["--safe", "rm", "disk.adf", "a"], "2 blocks").ends_with(" 1 free\n"));
    few(&["--safe", "mkdir", "disk.adf", "d"], "3 blocks");
    // Other refusals are those of the others.
    for (words, number) in [
        (&["--safe", "rm", "disk.adf", "b"][..], 22),
        (&["--safe", "mkdir", "disk.adf", "A"], 23),
        (&["--safe", "mkdir", "disk.adf", "a/b"], 21),
        (&["--safe", "mkdir", "disk.adf", "a:b"], 20),
        (&["--safe", "resize", "disk.adf", "/b", "1"], 22),
    ] {
        let error = folder.fails(1, words);
        assert!(error.contains(&format!(": {number}: ")), "{error}");
    }
    let error = folder.fails(1, &["--safe", "put", "disk.adf", "one", "--as", "A"]);
    assert_eq!(error, "pfs: disk.adf: A: 23: the name is already there: --keep replaces its bytes\n");
}

#[test]
fn a_safe_change_says_that_it_brings_no_anodes() {
    let folder = Folder::new("safe_anodes");
    folder.write("x", b"");
    folder.done(&["format", "disk.adf", "--blocks", "60", "--reserved", "50", "--anode-blocks", "1"]);
    for number in 0..73 {
        folder.write("f", b"");
        folder.done(&["put", "disk.adf", "f", "--as", &number.to_string()]);
    }
    let error = folder.fails(1, &["--safe", "put", "disk.adf", "x"]);
    assert!(error
        .starts_with("pfs: disk.adf: x: 28: no anode is free, and the anode table cannot grow: each file, "));
    assert!(error.ends_with(" needs an anode, and a safe change never brings more of them\n"), "{error}");
    folder.done(&["put", "disk.adf", "x"]);
    folder.done(&["--safe", "rm", "disk.adf", "x"]);
}

#[test]
fn what_cannot_be_done_safely_is_bad_usage() {
    let folder = Folder::with_disk("safe_usage");
    let error = folder.fails(2, &["--safe", "put", "disk.adf", "pack7", "recipes/", "--force"]);
    let lost = "--force removes a file before the new one is there, and a cut between would lose both";
    assert_eq!(error, format!("pfs: put: {lost}: --safe goes with --keep; see pfs put --help\n"));
    for words in [
        &["--safe"][..],
        &["--safe", "--safe", "mkdir", "disk.adf", "a"],
        &["--safe", "ls", "disk.adf"],
        &["--safe", "frobnicate", "disk.adf"],
        &["mv", "--safe", "disk.adf", "recipes/pack7", "pack8"],
        &["cp", "disk.adf", "recipes/pack7", "pack8", "--safe"],
        &["--safe", "format", "disk.adf", "--force"],
        &["--safe", "mkdir", "-", "a"],
        &["--safe", "mkdir", "missing.adf", "a"],
        &["--safe", "mkdir", ".", "a"],
        &["--safe", "mkdir", "/dev/null", "a"],
    ] {
        folder.fails(2, words);
    }
    folder.write("damaged.adf", &folder.read("disk.adf")[..100 * 512]);
    folder.fails(3, &["--safe", "rm", "damaged.adf", "recipes/pack7"]);
    let mut permissions = fs::metadata(folder.path("disk.adf")).expect("it is there").permissions();
    permissions.set_readonly(true);
    fs::set_permissions(folder.path("disk.adf"), permissions).expect("it is protected");
    let error = folder.fails(2, &["--safe", "mkdir", "disk.adf", "a"]);
    assert_eq!(error, "pfs: disk.adf: the file is write-protected\n");
}

/// Safe changes and others of one disk wait for each other.
#[test]
fn changes_in_place_and_others_at_the_same_time_are_all_kept() {
    let folder = Folder::with_disk("safe_together");
    let names: Vec<String> = (0..24).map(|i| format!("record{i:02}")).collect();
    let commands: Vec<Vec<&str>> = names
        .iter()
        .enumerate()
        .map(|(place, name)| {
            let safe = if place % 2 == 0 { &["--safe"][..] } else { &[] };
            [&["put", "disk.adf", "pack7", "--as", name.as_str()], safe].concat()
        })
        .collect();
    for run in folder.run_together(&commands) {
        assert_eq!((run.status, run.errors.as_str()), (0, ""));
    }
    let tree = folder.done(&["tree", "disk.adf"]);
    assert!(names.iter().all(|name| tree.contains(&format!("{name}  14\n"))), "{tree}");
    assert_eq!(folder.names(), ["disk.adf", "pack7"], "no temporary file stays");
}

/// What a command does, and the block writes that it makes.
struct Killed {
    words: &'static [&'static str],
    lists: fn(&mut Disk<Proved>) -> Result<Vec<Writes>, Error>,
}

const DAY: Stamp = Stamp { day: 17_850, minute: 1_267, tick: 2_500 };

/// Commands on a disk with the file `old` of 50,000 bytes and the directory `empty`.
const KILLED: [Killed; 6] = [
    Killed {
        words: &["--safe", "put", "disk.adf", "new", "--date", "2026-11-15T21:07:50"],
        lists: |disk| {
            Ok(vec![
                disk.safe_make(ROOT, &New { stamp: DAY, ..New::file(b"new") })?,
                disk.safe_resize(ROOT, b"new", 60_000)?,
                disk.safe_write(ROOT, b"new", 0, &[b'n'; 60_000])?,
            ])
        },
    },
    Killed {
        words: &["--safe", "put", "disk.adf", "same", "--as", "old", "--keep"],
        lists: |disk| Ok(vec![disk.safe_write(ROOT, b"old", 0, &[b's'; 50_000])?]),
    },
    Killed {
        words: &["--safe", "put", "disk.adf", "new", "--as", "old", "--keep"],
        lists: |disk| {
            Ok(vec![
                disk.safe_resize(ROOT, b"old", 60_000)?,
                disk.safe_write(ROOT, b"old", 0, &[b'n'; 60_000])?,
            ])
        },
    },
    Killed {
        words: &["--safe", "put", "disk.adf", "short", "--as", "old", "--keep"],
        lists: |disk| {
            Ok(vec![disk.safe_write(ROOT, b"old", 0, &[b'k'; 900])?, disk.safe_resize(ROOT, b"old", 900)?])
        },
    },
    Killed {
        words: &["--safe", "rm", "disk.adf", "old", "empty"],
        lists: |disk| Ok(vec![disk.safe_remove(ROOT, b"old")?, disk.safe_remove(ROOT, b"empty")?]),
    },
    Killed {
        words: &["--safe", "mkdir", "disk.adf", "one", "two", "--date", "2026-11-15T21:07:50"],
        lists: |disk| {
            Ok(vec![
                disk.safe_make(ROOT, &New { stamp: DAY, ..New::directory(b"one") })?,
                disk.safe_make(ROOT, &New { stamp: DAY, ..New::directory(b"two") })?,
            ])
        },
    },
];

/// Where a disk file stands that was changed by some lists: how many of them are whole, and how many writes of the next are
/// made. Nothing if it stands at no such place.
fn place_of(found: &[u8], old: &[u8], lists: &[Writes]) -> Option<(usize, usize)> {
    let mut image = old.to_vec();
    for (whole, writes) in lists.iter().enumerate() {
        for (made, write) in writes.iter().enumerate() {
            if image == found {
                return Some((whole, made));
            }
            image[write.offset() as usize..][..BLOCK].copy_from_slice(write.bytes);
        }
    }
    (image == found).then_some((lists.len(), 0))
}

/// The disk after so many whole changes.
fn after(old: &[u8], lists: &[Writes]) -> Vec<u8> {
    let mut image = old.to_vec();
    lists.iter().for_each(|writes| writes.apply(writes.len(), &mut image));
    image
}

/// The program is killed at any moment: the file stands at a place of the lists, is accepted, and holds the tree of the changes
/// that are whole.
#[test]
fn a_killed_command_leaves_a_sound_disk() {
    let folder = Folder::new("killed");
    folder.write("old", &[b'o'; 50_000]);
    folder.write("same", &[b's'; 50_000]);
    folder.write("new", &[b'n'; 60_000]);
    folder.write("short", &[b'k'; 900]);
    folder.done(&["format", "disk.adf", "--blocks", "400", "--name", "disk", "--date", "1978-01-01"]);
    folder.done(&["put", "disk.adf", "old", "--date", "1978-01-01"]);
    folder.done(&["mkdir", "disk.adf", "empty", "--date", "1978-01-01"]);
    let old = folder.read("disk.adf");
    let (mut runs, mut inside) = (0, 0);
    for mut case in seeded("a_killed_command_leaves_a_sound_disk", 0..KILLED.len() as u64) {
        let Killed { words, lists } = &KILLED[case.seed as usize];
        let mut disk = Disk::<Proved>::new(old.clone());
        let lists = lists(&mut disk).expect("there is room");
        folder.write("disk.adf", &old);
        let start = Instant::now();
        folder.done(words);
        let whole = start.elapsed();
        assert!(folder.read("disk.adf") == disk.image(), "{words:?} makes other writes");
        for turn in 0..40 {
            let delay = if turn == 0 { Duration::ZERO } else { random(whole * 5 / 4, &mut case.rng) };
            folder.write("disk.adf", &old);
            let mut child = folder.command(words).spawn().expect("the program runs");
            std::thread::sleep(delay);
            child.kill().expect("it is killed or has ended");
            child.wait().expect("it has ended");
            let found = folder.read("disk.adf");
            let place = place_of(&found, &old, &lists);
            let (done, made) =
                place.unwrap_or_else(|| panic!("{words:?} killed after {delay:?}: no such place"));
            let mut expected = Disk::<Proved>::new(after(&old, &lists[..done]));
            let differences = expected.differences(&mut Disk::new(found));
            assert_eq!(differences, Ok(Vec::new()), "{words:?} killed after {delay:?}, at {done} and {made}");
            runs += 1;
            inside += usize::from(made > 0);
        }
    }
    println!("{runs} runs were killed, {inside} of them between the writes of a change");
    assert_eq!(folder.names(), ["disk.adf", "new", "old", "same", "short"], "no temporary file is made");
}

/// Some time up to this one.
fn random(most: Duration, rng: &mut Rng) -> Duration {
    Duration::from_nanos(rng.below(most.as_nanos() as usize + 1) as u64)
}

/// Where `put` is cut off between its changes, the old bytes or the new ones of a file that was there are whole, and a new file
/// is empty or has zeros.
#[test]
fn nothing_is_lost_between_the_changes_of_put() {
    let folder = Folder::new("between");
    let mut disk = Disk::<Proved>::format(400, &Format::new(20, 1, b"disk")).expect("it is made");
    disk.root().store(&New::file(b"old"), &[b'o'; 50_000]).expect("there is room");
    disk.make(ROOT, &New::directory(b"empty")).expect("there is room");
    let old = disk.image().to_vec();
    let bytes = |name: &[u8], lists: &[Writes]| Disk::<Proved>::new(after(&old, lists)).root().read(name);
    let lists =
        KILLED.each_ref().map(|killed| (killed.lists)(&mut Disk::new(old.clone())).expect("there is room"));
    // A new file.
    assert_eq!(bytes(b"new", &lists[0][..1]), Ok(Vec::new()));
    assert_eq!(bytes(b"new", &lists[0][..2]), Ok(vec![0; 60_000]));
    // The same size is one change.
    assert_eq!(lists[1].len(), 1);
    // A longer one: the old bytes with zeros behind them. A shorter one: the new bytes with old ones behind them.
    assert_eq!(bytes(b"old", &lists[2][..1]), Ok([vec![b'o'; 50_000], vec![0; 10_000]].concat()));
    assert_eq!(bytes(b"old", &lists[3][..1]), Ok([vec![b'k'; 900], vec![b'o'; 49_100]].concat()));
    assert_eq!(folder.names(), Vec::<String>::new());
}
