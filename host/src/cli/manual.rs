//! The manual page and the shell's completion, both from the table of commands.

use std::io::Write;

use super::arguments::{Arguments, LATIN1};
use super::help::{self, Syntax, COMMANDS};
use super::Done;

/// A line of roff: no macro, and no escape.
fn roff(line: &str) -> String {
    let line = line.replace('\\', "\\e").replace('-', "\\-");
    match line.starts_with(['.', '\'']) {
        true => format!("\\&{line}\n"),
        false => line + "\n",
    }
}

/// Some lines as they stand.
fn verbatim(text: &str) -> String {
    let lines: String = text.lines().map(roff).collect();
    format!(".nf\n{lines}.fi\n")
}

pub fn man(out: &mut dyn Write) -> Done {
    let mut page = format!(".TH PFS 1 \"\" \"pfs {}\" \"PFS floppy disks\"\n", env!("CARGO_PKG_VERSION"));
    page += ".SH NAME\npfs \\- PFS floppy disks in image files\n.SH SYNOPSIS\n.B pfs\nCOMMAND DISK ...\n";
    page += ".SH DESCRIPTION\n";
    page += &verbatim(&help::whole());
    page += ".SH COMMANDS\n";
    for syntax in COMMANDS {
        page += &format!(".SS {}{}", roff(&syntax.usage()), verbatim(syntax.long));
    }
    Ok(out.write_all(page.as_bytes())?)
}

/// All options of a command, those with a value too.
fn options(syntax: &Syntax) -> String {
    let all = syntax.flags.iter().chain(syntax.options).chain(&[LATIN1, "--help"]);
    all.copied().collect::<Vec<_>>().join(" ")
}

fn bash() -> String {
    let names: Vec<&str> = COMMANDS.iter().map(|syntax| syntax.name).collect();
    let mut text = format!(
        "_pfs() {{
    local word=\"${{COMP_WORDS[COMP_CWORD]}}\" options=\"\"
    if [ \"$COMP_CWORD\" -eq 1 ]; then
        COMPREPLY=($(compgen -W \"{} help --help --version\" -- \"$word\"))
        return
    fi
    case \"${{COMP_WORDS[1]}}\" in
",
        names.join(" ")
    );
    for syntax in COMMANDS {
        text += &format!("        {}) options=\"{}\" ;;\n", syntax.name, options(syntax));
    }
    text + "    esac
    case \"$word\" in
        -*) COMPREPLY=($(compgen -W \"$options\" -- \"$word\")) ;;
        *) COMPREPLY=($(compgen -f -- \"$word\")) ;;
    esac
}
complete -o filenames -F _pfs pfs
"
}

fn fish() -> String {
    let mut text = String::from("complete -c pfs -n __fish_use_subcommand -f\n");
    for syntax in COMMANDS {
        let (name, short) = (syntax.name, syntax.short.replace('\'', "\\'"));
        text += &format!("complete -c pfs -n __fish_use_subcommand -a {name} -d '{short}'\n");
        for option in options(syntax).split(' ') {
            let option = match option.strip_prefix("--") {
                Some(long) => format!("-l {long}"),
                None => format!("-s {}", option.trim_start_matches('-')),
            };
            text += &format!("complete -c pfs -n '__fish_seen_subcommand_from {name}' {option}\n");
        }
    }
    text
}

pub fn completion(arguments: &Arguments, out: &mut dyn Write) -> Done {
    let text = match arguments.operand(0).as_encoded_bytes() {
        b"bash" => bash(),
        b"fish" => fish(),
        _ => return Err(arguments.trouble("bash or fish")),
    };
    Ok(out.write_all(text.as_bytes())?)
}
