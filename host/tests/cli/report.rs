//! The totals of a shift.

use crate::folder::Folder;

/// A folder with two sound disks, one of which has a file in two runs, and two that are refused.
fn shift(name: &str) -> Folder {
    let folder = Folder::with_disk(name);
    folder.write("long", &[7; 1_500]);
    folder.done(&["format", "b.adf", "--blocks", "100"]);
    folder.done(&["put", "b.adf", "pack7", "--as", "first"]);
    folder.done(&["put", "b.adf", "long", "--as", "second"]);
    folder.done(&["put", "b.adf", "pack7", "--as", "third"]);
    folder.done(&["rm", "b.adf", "first"]);
    // Blocks 5 to 9 were the first's, the second's and the third's. The second goes on in 10 and 11; 5 and 12 to 99 are free.
    folder.done(&["resize", "b.adf", "second", "2500"]);
    let mut damaged = folder.read("disk.adf");
    damaged[1024] = b'X';
    folder.write("damaged.adf", &damaged);
    folder.write("cut.adf", &damaged[..1000]);
    folder
}

#[test]
fn report_adds_up_a_shift() {
    let folder = shift("report");
    let disks = ["disk.adf", "b.adf", "damaged.adf", "cut.adf"];
    let report = "disk             free     files      dirs   longest     split
disk.adf         1752         1         2      1695         0
b.adf              89         2         1        88         1
damaged.adf 3: the disk type is not PFS\\0
cut.adf     1: the image is not a whole number of 512-byte blocks, or has fewer than 5 or more than 65,535 of them
all              1841         3         3      1783         1

accepted         2
refused          2
  under 1        1
  under 3        1
mean file size: 2528 bytes in 3 files
";
    assert_eq!(folder.done(&[&["report"][..], &disks].concat()), report);
    // Any order gives the same totals.
    let totals = |text: &str| text.lines().skip(5).map(String::from).collect::<Vec<String>>();
    let mut other = disks;
    other.reverse();
    assert_eq!(totals(&folder.done(&[&["report"][..], &other].concat())), totals(report));
}

#[test]
fn report_for_programs() {
    let folder = shift("report_json");
    let json = r#"{"disks": [{"disk": "b.adf", "answer": 0, "free": 89, "files": 2, "directories": 1, "longest_free": 88, "split_files": 1}, {"disk": "damaged.adf", "answer": 3, "words": "the disk type is not PFS\\0"}], "accepted": 1, "refused": {"3": 1}, "free": 89, "files": 2, "directories": 1, "longest_free": 88, "split_files": 1, "mean": {"bytes": 2514, "files": 2}}
"#;
    assert_eq!(folder.done(&["report", "--json", "b.adf", "damaged.adf"]), json);
}

#[test]
fn a_file_that_cannot_be_read_is_named() {
    let folder = shift("report_unread");
    let run = folder.run(&["report", "gone.adf", "disk.adf", "missing.adf"]);
    let text = "disk             free     files      dirs   longest     split
gone.adf    cannot be read
disk.adf         1752         1         2      1695         0
missing.adf cannot be read
all              1752         1         2      1695         0

accepted         1
refused          0
mean file size: 14 bytes in 1 files
";
    assert_eq!((run.status, run.out.as_str()), (2, text));
    assert!(
        run.errors.starts_with("pfs: gone.adf: ") && run.errors.contains("; missing.adf: "),
        "{}",
        run.errors
    );
    assert_eq!(run.errors.lines().count(), 1);
    let json = folder.run(&["report", "--json", "disk.adf", "gone.adf"]);
    assert_eq!(json.status, 2);
    assert!(json.out.contains(r#"{"disk": "gone.adf", "unread": "gone.adf: "#), "{}", json.out);
    folder.fails(2, &["report"]);
}
