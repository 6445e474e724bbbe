//! The command line over the model says on every run that it is not proved.

use std::ffi::OsString;

#[allow(dead_code)]
#[path = "../examples/pfs_model.rs"]
mod pfs_model;

fn run(words: &[&str]) -> (u8, String, String) {
    let words: Vec<OsString> = words.iter().map(OsString::from).collect();
    let (mut out, mut errors) = (Vec::new(), Vec::new());
    let status = pfs_model::run(&words, &mut out, &mut errors);
    let text = |bytes: Vec<u8>| String::from_utf8(bytes).expect("it is text");
    (status, text(out), text(errors))
}

#[test]
fn every_run_says_that_it_is_not_proved() {
    let disk = std::env::temp_dir().join(format!("pfs-model-{}.adf", std::process::id()));
    let disk = disk.to_str().expect("it is text");
    for words in
        [&["format", disk, "--force"][..], &["mkdir", disk, "a"], &["rm", disk, "b"], &["--help"], &[]]
    {
        assert!(run(words).2.starts_with("UNPROVED MODEL: "), "{words:?}");
    }
    let (status, out, errors) = run(&["tree", disk]);
    assert_eq!((status, out.as_str(), errors.as_str()), (0, "/\n  a/\n", pfs_model::LABEL));
    assert_eq!(run(&["rm", disk, "b"]).0, 1);
    std::fs::remove_file(disk).expect("the disk is removed");
}
