//! The manual page and the completion have what the table of commands has.

use std::process::Command;

use crate::folder::Folder;

/// The commands that the help lists.
fn commands(folder: &Folder) -> Vec<String> {
    let help = folder.done(&["--help"]);
    let lines = help.lines().skip(2).take_while(|line| line.starts_with("  "));
    lines.filter_map(|line| line.split_whitespace().next()).map(str::to_string).collect()
}

#[test]
fn the_manual_page_has_every_command() {
    let folder = Folder::new("man");
    let page = folder.done(&["man"]);
    let commands = commands(&folder);
    assert!(commands.len() > 15 && commands.contains(&"put".into()), "{commands:?}");
    for command in &commands {
        assert!(page.contains(&format!("\n.SS pfs {command}")), "{command}");
    }
    assert!(page.contains("\n  \\-\\-force         replace files that are there"), "{page}");
    // Nothing is taken for a macro that is none, and no backslash for an escape.
    let macros = page.lines().filter(|line| line.starts_with(['.', '\'']));
    for line in macros {
        let name = line.split(' ').next().unwrap_or_default();
        assert!([".TH", ".SH", ".SS", ".B", ".nf", ".fi"].contains(&name), "{line}");
    }
    assert!(page.contains("\\exNN is any byte"));
}

/// What bash offers for some words of a command line, the last of which is still being typed.
fn completed(folder: &Folder, words: &str) -> Vec<String> {
    let script = folder.done(&["completion", "bash"])
        + &format!("COMP_WORDS=({words})\nCOMP_CWORD=$((${{#COMP_WORDS[@]}} - 1))\n_pfs\nprintf '%s\\n' \"${{COMPREPLY[@]}}\"\n");
    let output = Command::new("bash").args(["-c", &script]).current_dir(folder.path(".")).output();
    let output = output.expect("bash runs");
    assert!(
        output.status.success() && output.stderr.is_empty(),
        "{}",
        String::from_utf8_lossy(&output.stderr)
    );
    String::from_utf8_lossy(&output.stdout).lines().map(str::to_string).collect()
}

#[test]
fn bash_completes_commands_options_and_files() {
    let folder = Folder::new("completion");
    folder.write("disk.adf", b"");
    let mut all = completed(&folder, "pfs ''");
    all.retain(|word| !["help", "--help", "--version"].contains(&word.as_str()));
    assert_eq!(all, commands(&folder));
    assert_eq!(completed(&folder, "pfs pu"), ["put"]);
    assert_eq!(completed(&folder, "pfs put disk.adf --no"), ["--no-times"]);
    assert_eq!(completed(&folder, "pfs check --w"), ["--where"]);
    assert_eq!(completed(&folder, "pfs ls di"), ["disk.adf"]);
    let fish = folder.done(&["completion", "fish"]);
    assert!(fish.contains("complete -c pfs -n __fish_use_subcommand -a put -d 'copy files onto the disk'\n"));
    assert!(fish.contains("complete -c pfs -n '__fish_seen_subcommand_from put' -l no-times\n"));
    assert!(fish.contains("complete -c pfs -n '__fish_seen_subcommand_from put' -s r\n"));
    folder.fails(2, &["completion", "zsh"]);
}
