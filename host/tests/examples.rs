//! The examples in C and in Rust do what they show.

use std::env;
use std::ffi::OsString;
use std::fs;
use std::path::Path;
use std::process::{self, Command};

use ovenknit_host::calls::BLOCK_WRITE;
use ovenknit_host::differences::{COMMENT, NAME, NUMBERS, PROTECTION, SIZE, STAMPS, TYPE};
use ovenknit_host::refusals::{Error, REFUSALS};

#[path = "../examples/demo.rs"]
mod demo;

const LINES: &str = "pack7: 14 bytes, white bread
180 C, 25 min
resize: refused by 27
1760 blocks, 1752 free
1760 blocks, 1754 free
";

#[test]
fn the_example_in_rust() {
    assert_eq!(demo::demo().as_deref(), Ok(LINES));
}

/// The command that compiles the example in C, as the front page and the example show it.
const COMPILE: &str = "cc -I include host/examples/demo.c target/staticlib/libpfs.a -o target/demo";

/// Runs the command from the repository's root with all warnings as errors, with this library and a file of its own for
/// the program, and then the program.
#[test]
fn the_example_in_c() {
    let program = Path::new(env!("CARGO_TARGET_TMPDIR")).join(format!("demo-{}", process::id()));
    let words = COMPILE.split(' ').map(|word| match word {
        "cc" => env::var_os("CC").unwrap_or("cc".into()),
        "target/staticlib/libpfs.a" => Path::new(env!("PFS_LIB_FOLDER")).join("libpfs.a").into(),
        "target/demo" => program.clone().into(),
        other => other.into(),
    });
    let words: Vec<OsString> = words.collect();
    let compiled = Command::new(&words[0])
        .args(["-std=c99", "-Wall", "-Wextra", "-Wpedantic", "-Werror", "-O1"])
        .args(&words[1..])
        .current_dir(Path::new(env!("CARGO_MANIFEST_DIR")).join(".."))
        .output()
        .expect("the C compiler runs");
    assert!(compiled.status.success(), "{}", String::from_utf8_lossy(&compiled.stderr));

    let ran = Command::new(&program).output().expect("the example runs");
    fs::remove_file(&program).expect("the program is removed");
    assert!(ran.status.success(), "{}", String::from_utf8_lossy(&ran.stderr));
    assert_eq!(String::from_utf8_lossy(&ran.stdout), LINES);
}

/// Compiles a program in C with all warnings as errors, runs it, and gives what it prints.
fn run_c(name: &str, source: &str, words: &[OsString]) -> String {
    let folder = Path::new(env!("CARGO_TARGET_TMPDIR")).join(format!("{name}-{}", process::id()));
    fs::create_dir_all(&folder).expect("the folder is made");
    let (file, program) = (folder.join("main.c"), folder.join("main"));
    fs::write(&file, source).expect("the source is written");
    let compiled = Command::new(env::var_os("CC").unwrap_or("cc".into()))
        .args(["-std=c99", "-Wall", "-Wextra", "-Wpedantic", "-Werror", "-O1"])
        .args([file.as_os_str(), "-o".as_ref(), program.as_os_str()])
        .args(words)
        .output()
        .expect("the C compiler runs");
    assert!(compiled.status.success(), "{}", String::from_utf8_lossy(&compiled.stderr));
    let ran = Command::new(&program).output().expect("it runs");
    fs::remove_dir_all(&folder).expect("the folder is removed");
    assert!(ran.status.success(), "{}", String::from_utf8_lossy(&ran.stderr));
    String::from_utf8_lossy(&ran.stdout).into_owned()
}

/// The name of a refusal in the header: `NoFreeBlock` is `PFS_NO_FREE_BLOCK`.
fn header_name(error: Error) -> String {
    let name = format!("{error:?}");
    let name = name.chars().map(|letter| match letter.is_uppercase() {
        true => format!("_{letter}"),
        false => letter.to_uppercase().to_string(),
    });
    format!("PFS{}", name.collect::<String>())
}

/// The header has every refusal by name, with its number and the same words, and as many fields as calls hand back.
#[test]
fn the_header_names_what_calls_answer() {
    let line = |name: &str| format!("    printf(\"%d %s\\n\", (int){name}, pfs_words({name}));\n");
    let mut source = String::from("#include <stdio.h>\n#include \"pfs.h\"\nint main(void)\n{\n");
    source += &line("PFS_DONE");
    source.extend(REFUSALS.iter().map(|row| line(&header_name(row.0))));
    source += "    printf(\"%s\\n\", pfs_words(99));\n";
    source += "    printf(\"%d %d %d %d %d\\n\", PFS_SUMMARY_FIELDS, PFS_LIST_FIELDS, PFS_LABEL_FIELDS, PFS_BITMAP_FIELDS, PFS_SETTINGS_FIELDS);\n";
    source += "    printf(\"%d %d %d %d\\n\", PFS_COMPARE_FIELDS, PFS_DIFFERENCES_FIELDS, PFS_DIFFERENCE, PFS_BLOCK_WRITE);\n";
    source += "    printf(\"%d %d %d %d %d %d\\n\", PFS_DIFFERING_TYPE, PFS_DIFFERING_NAME, PFS_DIFFERING_COMMENT, PFS_DIFFERING_STAMPS, PFS_DIFFERING_PROTECTION, PFS_DIFFERING_SIZE);\n";
    source += "    return 0;\n}\n";
    let include = Path::new(env!("CARGO_MANIFEST_DIR")).join("../include");
    let printed = run_c("words", &source, &["-I".into(), include.into()]);
    let mut expected = String::from("0 done\n");
    expected.extend(REFUSALS.iter().map(|(_, number, words)| format!("{number} {words}\n")));
    expected += "unknown number\n4 11 7 2 2\n";
    expected += &format!(
        "{} 2 {NUMBERS} {BLOCK_WRITE}\n{TYPE} {NAME} {COMMENT} {STAMPS} {PROTECTION} {SIZE}\n",
        1 + NUMBERS
    );
    assert_eq!(printed, expected);
}

/// A program in C that keeps a copy of a disk by the block writes of safe changes, and cuts the last one off.
const SAFE_IN_C: &str = r#"#include <stdio.h>
#include <string.h>
#include "pfs.h"

static uint8_t image[1760 * 512], kept[sizeof image], writes[64 * PFS_BLOCK_WRITE];
static uint16_t blocks[1760], anodes[PFS_ANODES];

#define DISK image, sizeof image, blocks, 1760, anodes, PFS_ANODES
#define TEXT(text) (const uint8_t *)text, strlen(text)

/* Makes some of the block writes. */
static void keep(uint32_t from, uint32_t to)
{
    for (; from < to; from++) {
        const uint8_t *write = writes + from * PFS_BLOCK_WRITE;
        memcpy(kept + (write[0] * 256 + write[1]) * 512, write + 2, 512);
    }
}

/* What a change answered, how many block writes it has, and whether the copy holds the same then. */
static void told(uint32_t answer, const uint32_t *count)
{
    keep(0, count[0]);
    printf("%u %u %d\n", (unsigned)answer, (unsigned)count[0], memcmp(image, kept, sizeof image) == 0);
}

int main(void)
{
    uint8_t back[5] = { 0 };
    uint32_t count[1];
    pfs_format(image, sizeof image, 63, 2, TEXT("disk"), 1, 2, 3, 0);
    memcpy(kept, image, sizeof image);
    told(pfs_safe_make(DISK, PFS_ROOT, PFS_FILE, TEXT("pack7"), TEXT("white bread"), 1, 2, 3, 4, writes, sizeof writes, count), count);
    told(pfs_safe_resize(DISK, PFS_ROOT, TEXT("pack7"), 600, writes, sizeof writes, count), count);
    told(pfs_safe_write(DISK, PFS_ROOT, TEXT("pack7"), 0, TEXT("180 C"), writes, sizeof writes, count), count);
    told(pfs_safe_write(DISK, PFS_ROOT, TEXT("pack7"), 599, TEXT("180 C"), writes, sizeof writes, count), count);
    told(pfs_safe_write(DISK, PFS_ROOT, TEXT("pack7"), 0, TEXT("170 C"), writes, 5 * PFS_BLOCK_WRITE - 1, count), count);
    printf("%u", (unsigned)pfs_safe_remove(DISK, PFS_ROOT, TEXT("pack7"), writes, sizeof writes, count));
    keep(0, count[0] - 1);
    memcpy(image, kept, sizeof image);
    printf(" %u %.5s\n", (unsigned)pfs_read(DISK, PFS_ROOT, TEXT("pack7"), 0, back, 5), (const char *)back);
    keep(count[0] - 1, count[0]);
    memcpy(image, kept, sizeof image);
    printf("%u\n", (unsigned)pfs_read(DISK, PFS_ROOT, TEXT("pack7"), 0, back, 5));
    return 0;
}
"#;

/// The four calls take what the header says, and their lists can be made from C.
#[test]
fn safe_changes_from_c() {
    let include = Path::new(env!("CARGO_MANIFEST_DIR")).join("../include");
    let library = Path::new(env!("PFS_LIB_FOLDER")).join("libpfs.a");
    let printed = run_c("safe", SAFE_IN_C, &["-I".into(), include.into(), library.into()]);
    assert_eq!(printed, "0 4 1\n0 6 1\n0 5 1\n26 0 1\n32 0 1\n0 0 180 C\n22\n");
}

/// What is installed is enough to build the example and to run the program.
#[test]
fn the_installation_is_whole() {
    let folder = Path::new(env!("CARGO_TARGET_TMPDIR")).join(format!("install-{}", process::id()));
    let root = Path::new(env!("CARGO_MANIFEST_DIR")).join("..");
    let install = |arguments: &[&Path]| {
        let mut command = Command::new(root.join("install.sh"));
        command.args(arguments).env("PFS_LIB_DIR", env!("PFS_LIB_FOLDER"));
        command.env("PFS_PROGRAM", env!("CARGO_BIN_EXE_pfs")).env_remove("DESTDIR");
        command.output().expect("the script runs")
    };
    assert_eq!(install(&[]).status.code(), Some(2));
    let installed = install(&[&folder]);
    assert!(installed.status.success(), "{}", String::from_utf8_lossy(&installed.stderr));
    for file in [
        "share/man/man1/pfs.1",
        "share/bash-completion/completions/pfs",
        "share/fish/vendor_completions.d/pfs.fish",
    ] {
        assert!(fs::metadata(folder.join(file)).is_ok_and(|file| file.len() > 1_000), "{file}");
    }
    let version = Command::new(folder.join("bin/pfs")).arg("--version").output().expect("the program runs");
    assert_eq!(version.stdout, format!("pfs {}\n", env!("CARGO_PKG_VERSION")).into_bytes());

    // The words that the .pc file gives to a compiler.
    let page = fs::read_to_string(folder.join("lib/pkgconfig/pfs.pc")).expect("the file is read");
    let shown = folder.display().to_string();
    assert!(page.starts_with(&format!("prefix={shown}\n")), "{page}");
    assert!(page.contains(&format!("\nVersion: {}\n", env!("CARGO_PKG_VERSION"))), "{page}");
    let words = |key: &str| {
        let line = page.lines().find_map(|line| line.strip_prefix(key)).expect("the line is there");
        let line = line.replace("${includedir}", "${prefix}/include").replace("${libdir}", "${prefix}/lib");
        line.replace("${prefix}", &shown).split_whitespace().map(OsString::from).collect::<Vec<_>>()
    };
    let words = [words("Cflags:"), words("Libs:")].concat();
    assert_eq!(run_c("installed", EXAMPLE_IN_C, &words), LINES);
    fs::remove_dir_all(&folder).expect("the folder is removed");
}

const PAGE: &str = include_str!("../../README.md");
const EXAMPLE_IN_C: &str = include_str!("../examples/demo.c");
const EXAMPLE_IN_RUST: &str = include_str!("../examples/demo.rs");

/// What the front page shows of the examples stands in them, and it shows all that both print.
#[test]
fn the_front_page_shows_the_examples() {
    for (fence, text) in [("```c\n", EXAMPLE_IN_C), ("```rust\n", EXAMPLE_IN_RUST)] {
        let shown: Vec<&str> =
            PAGE.split(fence).skip(1).filter_map(|rest| rest.split("```").next()).collect();
        assert_eq!(shown.len(), 1, "one block behind {fence}");
        assert!(text.contains(shown[0]), "the page shows what is not in the example:\n{}", shown[0]);
    }
    let (_, printed) = PAGE.split_once("Both print:\n\n").expect("the page shows what they print");
    let printed: Vec<&str> = printed.lines().map_while(|line| line.strip_prefix("    ")).collect();
    assert_eq!(printed, LINES.lines().collect::<Vec<_>>());
}

/// The front page and the example show the same command, and run the program that it makes.
#[test]
fn the_command_for_c_is_shown() {
    let shown = format!("    {COMPILE} && target/demo\n");
    assert!(PAGE.contains(&shown) && EXAMPLE_IN_C.contains(&shown), "{shown}");
}
