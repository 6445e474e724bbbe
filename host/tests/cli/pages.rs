//! The pages for people say what the program does.

use std::env;
use std::process::Command;

use crate::folder::Folder;

const TECHNICIAN: &str = include_str!("../../../docs/TECHNICIAN.md");
const INSPECTOR: &str = include_str!("../../../docs/INSPECTOR.md");
const FRONT: &str = include_str!("../../../README.md");
const EXPORTS: &str = include_str!("../../../crates/pfs/src/lib.rt");

/// The command lines of a page: those that begin with the program's name, without what is said about them.
fn command_lines(page: &str) -> impl Iterator<Item = &str> {
    let lines = page.lines().filter_map(|line| line.strip_prefix("    "));
    let lines = lines.filter(|line| line.starts_with("pfs "));
    lines.filter_map(|line| line.split("   ").next()).map(str::trim_end)
}

/// Runs a command line by the shell, as a reader would.
fn shell(folder: &Folder, line: &str) -> (Option<i32>, String) {
    let program = env!("CARGO_BIN_EXE_pfs");
    let path = program.strip_suffix("/pfs").expect("the program is called pfs");
    let path = format!("{path}:{}", env::var("PATH").unwrap_or_default());
    let output =
        Command::new("sh").args(["-c", line]).env("PATH", path).current_dir(folder.path(".")).output();
    let output = output.expect("the shell runs");
    let text = [output.stdout, output.stderr].concat();
    (output.status.code(), String::from_utf8_lossy(&text).into_owned())
}

#[test]
fn every_command_of_the_technicians_page_works() {
    let folder = Folder::new("technician");
    folder.write("pack7", &[b'7'; 1_000]);
    folder.write("pack8", b"180 C");
    folder.write("big", &[0; 1_000_000]);
    folder.write("times", b"S1\x00\x07\xFF\xFF");
    for name in ["line3", "back"] {
        std::fs::create_dir(folder.path(name)).expect("the folder is made");
    }
    folder.write("line3/pack1", b"170 C");
    folder.done(&["format", "bench5.adf"]);
    let mut run = 0;
    for line in command_lines(TECHNICIAN) {
        let (status, text) = shell(&folder, line);
        // The disks of the page differ.
        let expected = if line.starts_with("pfs diff ") { 1 } else { 0 };
        assert_eq!(status, Some(expected), "{line}: {text}");
        run += 1;
    }
    assert!(run >= 23, "{run} command lines");
    assert!(folder.read("bench4.svg").ends_with(b"</svg>\n") && folder.path("recipes/old").is_dir());

    // The refusal and the damage that the page shows.
    let (status, refusal) = shell(&folder, "pfs put bench4.adf big");
    assert!(status == Some(1) && TECHNICIAN.contains(&format!("    {refusal}")), "{refusal}");
    for line in command_lines(TECHNICIAN).take(3) {
        shell(&folder, &line.replace("bench4.adf", "bench6.adf"));
    }
    let mut image = folder.read("bench6.adf");
    image[6 * 512 + 36 + 4..][..4].copy_from_slice(&1_025u32.to_be_bytes());
    folder.write("bench4.adf", &image);
    let (status, damage) = shell(&folder, "pfs check --where bench4.adf");
    let shown: String = damage.lines().map(|line| format!("    {line}\n")).collect();
    assert!(status == Some(3) && TECHNICIAN.contains(&shown), "{damage}");
}

/// Runs the commands that the front page shows behind a heading, up to a line that begins so, one after the other: each prints
/// what the page shows. Answers how many there are.
fn commands_shown(name: &str, heading: &str, end: &str) -> usize {
    let folder = Folder::new(name);
    let (_, page) = FRONT.split_once(&format!("## {heading}\n\n")).expect("the page has the section");
    let lines = page.lines().take_while(|line| !line.starts_with(end));
    let shown = lines.filter_map(|line| if line.is_empty() { Some(line) } else { line.strip_prefix("    ") });
    let shown = shown.collect::<Vec<_>>().join("\n");
    let mut run = 0;
    for part in shown.trim_end().split("$ ").skip(1) {
        let (line, printed) = part.split_once('\n').unwrap_or((part, ""));
        assert_eq!(shell(&folder, line).1.trim_end(), printed.trim_end(), "{line}");
        run += 1;
    }
    run
}

#[test]
fn the_front_page_shows_a_session() {
    assert!(commands_shown("front_page", "The command line", "docs/") >= 12);
}

#[test]
fn the_front_page_shows_safe_changes() {
    assert!(commands_shown("front_page_safe", "Safe changes", "What it costs") >= 10);
}

#[test]
fn the_pages_are_short_and_true() {
    for (page, text) in [("TECHNICIAN.md", TECHNICIAN), ("INSPECTOR.md", INSPECTOR)] {
        assert!(text.lines().count() <= 80, "{page}");
    }
    assert!(!EXPORTS.contains("requires") && EXPORTS.matches("ensures").count() >= 15);
    // Both say what accepted does not cover, and so does the front page.
    for text in [TECHNICIAN, INSPECTOR, FRONT] {
        assert!(text.contains("bytes inside files"));
    }
}
