//! The commands that only look at a disk.

use crate::folder::Folder;

#[test]
fn info_and_check() {
    let folder = Folder::with_disk("info_and_check");
    let options = ["--name", "bench 5", "--date=2024-07-18T10:00", "--protection", "257"];
    folder.done(&[&["format", "other.adf", "--blocks=20"][..], &options].concat());
    let info = folder.done(&["info", "disk.adf", "other.adf"]);
    let (disk, other) = info.split_once("\n\n").expect("there are two");
    let numbers = "protection      ----rwed (0)
blocks          1760
bytes           901120
last reserved   63
free blocks     1752
files           1
directories     2
anode blocks    2 of 42
anodes          164
anodes in use   6
anodes free     155
anodes to come  3280";
    assert!(
        disk.starts_with("disk            disk.adf\nname            \"bench 4\"\ndate            20"),
        "{disk}"
    );
    assert!(disk.ends_with(numbers), "{disk}");
    let numbers = "disk            other.adf
name            \"bench 5\"
date            2024-07-18 10:00:00.00 UTC
protection      ----rwe- (257)
blocks          20
bytes           10240
last reserved   4
free blocks     15
files           0
directories     1
anode blocks    1 of 42
anodes          82
anodes in use   4
anodes free     75
anodes to come  1230
";
    assert_eq!(other, numbers);
    assert_eq!(folder.done(&["info", "other.adf"]), numbers);
    let accepted = "0: accepted
The bytes inside files are not checked: the disk holds nothing to check them by.
";
    assert_eq!(folder.done(&["check", "disk.adf"]), accepted);
}

#[test]
fn check_says_the_number_of_damage_and_what_it_means() {
    let folder = Folder::with_disk("check_damage");
    let mut image = folder.read("disk.adf");
    image[1024] = b'X';
    folder.write("damaged.adf", &image);
    folder.write("cut.adf", &image[..1000]);
    let type_run = folder.run(&["check", "damaged.adf"]);
    assert_eq!((type_run.status, type_run.out.as_str()), (3, "3: the disk type is not PFS\\0\n"));
    assert_eq!(type_run.errors, "");
    let cut = folder.run(&["check", "cut.adf"]);
    assert_eq!((cut.status, &cut.out[..3]), (3, "1: "));
    // Of several disks each has a line of its own, and the highest status counts.
    let several = folder.run(&["check", "disk.adf", "damaged.adf", "disk.adf"]);
    let lines = "disk.adf: 0: accepted
damaged.adf: 3: the disk type is not PFS\\0
disk.adf: 0: accepted
The bytes inside files are not checked: the disk holds nothing to check them by.
";
    assert_eq!((several.status, several.out.as_str()), (3, lines));
    let several = folder.run(&["check", "missing.adf", "disk.adf"]);
    assert!(several.status == 2 && several.out.starts_with("missing.adf: No such file"), "{}", several.out);
    assert!(several.out.contains("\ndisk.adf: 0: accepted\n"), "{}", several.out);
    let several = folder.run(&["info", "damaged.adf", "disk.adf", "missing.adf"]);
    let first = "disk            damaged.adf\ndamaged.adf: 3: the disk type is not PFS\\0\n\ndisk            disk.adf\n";
    assert!(several.status == 3 && several.out.starts_with(first), "{}", several.out);
    assert!(
        several.out.contains("\ndisk            missing.adf\nmissing.adf: No such file"),
        "{}",
        several.out
    );
    for command in ["info", "ls", "tree", "df", "map"] {
        let error = folder.fails(3, &[command, "damaged.adf"]);
        assert_eq!(error, "pfs: damaged.adf: 3: the disk type is not PFS\\0\n");
    }
    folder.fails(3, &["rm", "damaged.adf", "recipes"]);
}

/// What a bench leaves that lost power while it cleared an anode.
#[test]
fn check_tells_a_half_cleared_anode() {
    let folder = Folder::with_disk("half_cleared");
    let mut image = folder.read("disk.adf");
    // Anode 20, in the first anode block, gets (3, 0, 17).
    image[3 * 512 + 16 + 20 * 6..][..6].copy_from_slice(&[0, 3, 0, 0, 0, 17]);
    folder.write("damaged.adf", &image);
    let run = folder.run(&["check", "damaged.adf"]);
    assert_eq!((run.status, run.errors.as_str()), (3, ""));
    assert!(run.out.starts_with("7: an anode is half cleared, "), "{}", run.out);
    for command in [&["info", "damaged.adf"][..], &["rm", "damaged.adf", "recipes/pack7"]] {
        let error = folder.fails(3, command);
        assert!(error.ends_with(&format!(": {}", run.out)), "{error}");
    }
}

#[test]
fn bitmap_is_made_and_checked() {
    let folder = Folder::with_disk("bitmap");
    let made = folder.output(&["bitmap", "disk.adf"]);
    assert_eq!((made.len(), &made[..2], &made[8..12]), (1_024, &b"BM"[..], &[0; 4][..]));
    folder.write("free.bm", &made);
    assert_eq!(folder.done(&["bitmap", "--check", "free.bm", "disk.adf"]), "the bitmap is the disk's\n");
    // The file pack7 has the first block behind last reserved, 64.
    let mut wrong = made.clone();
    wrong[12] |= 0x80;
    folder.write("wrong.bm", &wrong);
    let run = folder.run(&["bitmap", "--check", "wrong.bm", "disk.adf"]);
    let told = "byte 12, in bitmap block 0: disk block 64 is marked available, and is not free\n";
    assert_eq!((run.status, run.out.as_str(), run.errors.as_str()), (1, told, ""));
    folder.write("short.bm", &made[..1_000]);
    let error = folder.fails(1, &["bitmap", "--check", "short.bm", "disk.adf"]);
    assert_eq!(
        error,
        "pfs: short.bm: 40: the bitmap has not as many blocks as the disk needs: 1000 bytes, and the disk needs 1024\n"
    );
    folder.fails(2, &["bitmap", "--check", "missing.bm", "disk.adf"]);
}

#[test]
fn ls_shows_every_field() {
    let folder = Folder::with_disk("ls");
    let root = "dir           -  ----rwed  2024-07-18 10:00:00.00 UTC  recipes\n";
    let recipes = "file         14  ----rwe-  2024-07-18 10:01:02.00 UTC  pack7  \"white bread\"\n";
    assert_eq!(folder.done(&["ls", "disk.adf"]), root);
    assert_eq!(folder.done(&["ls", "disk.adf", "/"]), root);
    for path in ["recipes", "/recipes/", "recipes/pack7"] {
        assert_eq!(folder.done(&["ls", "disk.adf", path]), recipes);
    }
}

/// A name that looks like a name with a comment, and others that look like what they are not.
#[test]
fn nothing_can_be_forged() {
    let folder = Folder::with_disk("forged");
    for name in ["a  \"line 3\"", "b  14", "c\u{202e}d"] {
        folder.done(&[
            "put",
            "disk.adf",
            "pack7",
            "--as",
            name,
            "--date",
            "1978-01-01",
            "--comment",
            "x\"  y",
        ]);
    }
    folder.done(&["mkdir", "disk.adf", "d  e"]);
    let ls = folder.done(&["ls", "disk.adf"]);
    let names: Vec<&str> =
        ls.lines().skip(1).filter_map(|line| line.split_once(" UTC  ")).map(|(_, rest)| rest).collect();
    assert_eq!(
        names,
        [
            "\"a  \\x22line 3\\x22\"  \"x\\x22  y\"",
            "\"b  14\"  \"x\\x22  y\"",
            "c\\xe2\\x80\\xaed  \"x\\x22  y\"",
            "\"d  e\""
        ]
    );
    let tree = folder.done(&["tree", "disk.adf"]);
    let shown = "  \"a  \\x22line 3\\x22\"  14\n  \"b  14\"  14\n  c\\xe2\\x80\\xaed  14\n  \"d  e\"/\n";
    assert!(tree.ends_with(shown), "{tree}");
    // What is shown can be typed again.
    assert_eq!(folder.done(&["cat", "disk.adf", "a  \\x22line 3\\x22"]), "180 C, 25 min\n");
}

#[test]
fn looks_for_programs() {
    let folder = Folder::with_disk("json");
    folder.done(&["put", "disk.adf", "pack7", "--as", "a\\xff\"b", "--date=1978-01-02T01:02:03"]);
    let recipes = r#"{"path": "recipes", "name": "recipes", "type": "dir", "size": null, "protection": "----rwed", "date_utc": "2024-07-18T10:00:00.00Z", "day": 17000, "minute": 600, "tick": 0, "comment": ""}"#;
    let pack7 = r#"{"path": "recipes/pack7", "name": "pack7", "type": "file", "size": 14, "protection": "----rwe-", "date_utc": "2024-07-18T10:01:02.00Z", "day": 17000, "minute": 601, "tick": 100, "comment": "white bread"}"#;
    let odd = r#"{"path": "a\\xff\\x22b", "name": "a\\xff\\x22b", "type": "file", "size": 14, "protection": "----rwed", "date_utc": "1978-01-02T01:02:03.00Z", "day": 1, "minute": 62, "tick": 150, "comment": ""}"#;
    let entries = |all: &[&str]| format!("{{\"disk\": \"disk.adf\", \"entries\": [{}]}}\n", all.join(", "));
    assert_eq!(folder.done(&["ls", "disk.adf", "--json"]), entries(&[recipes, odd]));
    assert_eq!(folder.done(&["ls", "disk.adf", "recipes/pack7", "--json"]), entries(&[pack7]));
    assert_eq!(folder.done(&["tree", "disk.adf", "--json"]), entries(&[recipes, pack7, odd]));
    let info = folder.done(&["info", "disk.adf", "disk.adf", "--json"]);
    let numbers = "\"protection\": 0, \"last_reserved\": 63, \"blocks\": 1760, \"bytes\": 901120, \"free_blocks\": 1751, \"files\": 2, \"directories\": 2, \"anode_blocks\": 2, \"most_anode_blocks\": 42, \"anodes\": 164, \"anodes_in_use\": 7, \"anodes_free\": 154, \"anodes_to_come\": 3280}";
    assert!(
        info.starts_with("[{\"disk\": \"disk.adf\", \"name\": \"bench 4\", \"date_utc\": \"20"),
        "{info}"
    );
    assert!(info.matches(numbers).count() == 2 && info.ends_with("}]\n"), "{info}");
    assert_eq!(
        folder.done(&["check", "disk.adf", "--json"]),
        "[{\"disk\": \"disk.adf\", \"number\": 0, \"words\": \"accepted\", \"where_not_proved\": null}]\n"
    );
    let df = folder.done(&["df", "disk.adf", "--json"]);
    assert!(df.starts_with("{\"disk\": \"disk.adf\", \"blocks\": 1760, \"uses\": [{\"use\": \"free\", \"blocks\": 1751, \"bytes\": 896512}, "));
    assert!(df.ends_with("{\"use\": \"bad\", \"blocks\": 0, \"bytes\": 0}], \"anode_blocks\": 2, \"most_anode_blocks\": 42, \"anodes\": 164, \"anodes_in_use\": 7, \"anodes_free\": 154, \"anodes_to_come\": 3280}\n"), "{df}");
    let map = folder.done(&["map", "disk.adf", "--json"]);
    assert!(map.starts_with("{\"disk\": \"disk.adf\", \"blocks\": 1760, \"last_reserved\": 63, \"runs\": [{\"first\": 0, \"last\": 2, \"use\": \"start blocks\", \"path\": null}, "));
    assert!(map.contains(r#"{"first": 65, "last": 65, "use": "files", "path": "a\\xff\\x22b"}"#), "{map}");
    // A refused disk says so in the same form.
    folder.write("cut.adf", b"PFS");
    let run = folder.run(&["check", "cut.adf", "--json"]);
    assert!(
        run.status == 3 && run.out.starts_with("[{\"disk\": \"cut.adf\", \"number\": 1, \"words\": \""),
        "{}",
        run.out
    );
}

#[test]
fn latin1_names_are_text() {
    let folder = Folder::with_disk("latin1");
    folder.done(&["put", "disk.adf", "pack7", "--latin1", "--as", "K\u{e4}se", "--comment", "\u{e9}t\u{e9}"]);
    assert!(folder.done(&["ls", "disk.adf"]).ends_with("K\\xe4se  \"\\xe9t\\xe9\"\n"));
    assert!(folder.done(&["ls", "disk.adf", "--latin1"]).ends_with("K\u{e4}se  \"\u{e9}t\u{e9}\"\n"));
    assert_eq!(folder.done(&["cat", "disk.adf", "K\u{e4}se", "--latin1"]), "180 C, 25 min\n");
    assert_eq!(folder.done(&["cat", "disk.adf", "K\\xe4se"]), "180 C, 25 min\n");
    folder.fails(2, &["put", "disk.adf", "pack7", "--latin1", "--as", "\u{20ac}"]);
    folder.done(&["get", "disk.adf", "K\u{e4}se", "--latin1"]);
    assert_eq!(folder.read("K\u{e4}se"), b"180 C, 25 min\n");
}

#[test]
fn tree_indents_what_is_inside() {
    let folder = Folder::with_disk("tree");
    folder.done(&["mkdir", "disk.adf", "recipes/old"]);
    folder.done(&["put", "disk.adf", "pack7", "--as", "recipes/old/pack6"]);
    folder.done(&["put", "disk.adf", "pack7"]);
    let all = "/
  recipes/
    pack7  14
    old/
      pack6  14
  pack7  14
";
    assert_eq!(folder.done(&["tree", "disk.adf"]), all);
    assert_eq!(folder.done(&["tree", "disk.adf", "recipes/old"]), "recipes/old\n  pack6  14\n");
    folder.fails(1, &["tree", "disk.adf", "pack7"]);
}

#[test]
fn cat_and_get_give_the_bytes() {
    let folder = Folder::with_disk("cat_and_get");
    assert_eq!(folder.done(&["cat", "disk.adf", "recipes/pack7"]), "180 C, 25 min\n");
    assert_eq!(folder.done(&["get", "disk.adf", "recipes/pack7", "copy"]), "");
    assert_eq!(folder.read("copy"), b"180 C, 25 min\n");
    folder.write("pack7", b"another");
    folder.fails(2, &["get", "disk.adf", "recipes/pack7"]);
    folder.done(&["get", "disk.adf", "recipes/pack7", "--force"]);
    assert_eq!(folder.read("pack7"), b"180 C, 25 min\n");
    folder.fails(1, &["cat", "disk.adf", "recipes"]);
    folder.fails(1, &["get", "disk.adf", "recipes/pack8"]);
    assert_eq!(folder.names(), ["copy", "disk.adf", "pack7"]);
}

#[test]
fn df_adds_up() {
    let folder = Folder::with_disk("df");
    let table = "               blocks      bytes   share
free             1752     897024   99.5%
files               1        512    0.1%
directories         2       1024    0.1%
anode blocks        2       1024    0.1%
start blocks        3       1536    0.2%
to be freed         0          0    0.0%
bad                 0          0    0.0%
all              1760     901120  100.0%

               anodes
in use              6
free              155
all               164 in 2 of 42 anode blocks
to come          3280 in 40 more
";
    assert_eq!(folder.done(&["df", "disk.adf"]), table);
}

#[test]
fn map_draws_every_block() {
    let folder = Folder::with_disk("map");
    let map = folder.done(&["map", "disk.adf"]);
    let mut lines = map.lines();
    let first = format!("    0 SSSAADD{}|", ".".repeat(57));
    assert_eq!(lines.next(), Some(first.as_str()));
    assert_eq!(lines.next(), Some(format!("   64 F{}", ".".repeat(63)).as_str()));
    assert_eq!(map.lines().take(28).map(|line| line[6..].replace('|', "").len()).sum::<usize>(), 1_760);
    assert!(map.ends_with("X bad 0\n| behind last reserved 63\n"));
    let owners = "    0 -     2  S  start blocks
    3 -     4  A  anode blocks
    5 -     5  D  /
    6 -     6  D  recipes
    7 -    63  .  free
   64 -    64  F  recipes/pack7
   65 -  1759  .  free
";
    assert_eq!(folder.done(&["map", "disk.adf", "--owners"]), owners);
    let error = folder.fails(2, &["map", "disk.adf", "--owners", "--svg"]);
    assert_eq!(error, "pfs: map: one of --svg, --owners and --json; see pfs map --help\n");
}

#[test]
fn map_draws_a_picture() {
    let folder = Folder::with_disk("map_svg");
    let svg = folder.done(&["map", "disk.adf", "--svg"]);
    // A ground to stand on, the title, and the rows' numbers.
    assert!(svg.contains("<rect x=\"-8\" y=\"-8\" width=\"570\" height=\"314\" fill=\"#ffffff\"/>"), "{svg}");
    assert!(svg.contains("font-weight=\"bold\">\"bench 4\", 20") && svg.contains(" UTC, 1760 blocks</text>"));
    for row in ["0", "128", "1664"] {
        assert!(svg.contains(&format!("text-anchor=\"end\">{row}</text>")), "{row}");
    }
    folder.done(&["put", "disk.adf", "pack7", "--as", "a<b&c"]);
    let svg = folder.done(&["map", "disk.adf", "--svg"]);
    assert!(svg.starts_with("<svg xmlns=\"http://www.w3.org/2000/svg\"") && svg.ends_with("</svg>\n"));
    assert!(svg.contains("<title>3 to 4: anode blocks</title>"));
    assert!(svg.contains("<title>64: recipes/pack7</title>"));
    assert!(svg.contains("<title>65: \"a&lt;b&amp;c\"</title>"));
    assert!(svg.contains("<title>behind last reserved</title>"));
    for name in [
        "free 1751",
        "files 2",
        "directories 2",
        "anode blocks 2",
        "start blocks 3",
        "to be freed 0",
        "bad 0",
        "last reserved 63",
    ] {
        assert!(svg.contains(&format!(">{name}</text>")), "{name}");
    }
    // Every rectangle and line is closed.
    for element in ["rect", "path"] {
        let opened = svg.split('<').filter(|piece| piece.starts_with(element));
        let open = opened.filter(|piece| !piece.trim_end().ends_with("/>")).count();
        assert_eq!(open, svg.matches(&format!("</{element}>")).count(), "{element}");
    }
    // The boundary before block 64 is one line across the picture.
    assert!(svg.contains("<path d=\"M554 82 H42\""));
    // Before block 21 it goes along the rest of the row, down, and below the row's beginning.
    folder.done(&["format", "small.adf", "--blocks", "100", "--reserved", "20"]);
    let small = folder.done(&["map", "small.adf", "--svg"]);
    assert!(small.contains("<path d=\"M554 74 H210 V82 H42\"") && small.contains(">last reserved 20</text>"));
    // Files beside each other have shades of their own, and a file in pieces says which piece each is.
    for (name, blocks) in [("a", "512"), ("b", "512"), ("c", "512")] {
        folder.write(name, b"");
        folder.done(&["put", "small.adf", name]);
        folder.done(&["resize", "small.adf", name, blocks]);
    }
    folder.done(&["resize", "small.adf", "a", "1024"]);
    let pieces = folder.done(&["map", "small.adf", "--svg"]);
    for (block, shade, owner) in [
        (21, "#4c78a8", "a, run 1 of 2"),
        (22, "#86aed6", "b"),
        (23, "#2f5580", "c"),
        (24, "#4c78a8", "a, run 2 of 2"),
    ] {
        let shown =
            format!("fill=\"{shade}\" stroke=\"#ffffff\" stroke-width=\"1\"><title>{block}: {owner}</title>");
        assert!(pieces.contains(&shown), "{shown}");
    }
}

#[test]
fn help_is_there_for_the_whole_and_for_each() {
    let folder = Folder::new("help");
    let whole = folder.done(&["--help"]);
    assert_eq!(folder.done(&["--version"]), format!("pfs {}\n", env!("CARGO_PKG_VERSION")));
    folder.fails(2, &["help", "frobnicate"]);
    assert_eq!(folder.done(&["help"]), whole);
    let commands = "info check ls tree cat get put mkdir rm mv cp resize format df map";
    for command in commands.split(' ') {
        assert!(whole.contains(&format!("\n  {command} ")), "{command}");
        let help = folder.done(&[command, "--help"]);
        assert_eq!(folder.done(&["help", command]), help);
        assert!(help.starts_with(&format!("usage: pfs {command} DISK")), "{help}");
    }
}
