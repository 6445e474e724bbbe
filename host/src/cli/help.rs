//! The commands, what they take, and what is said about them.

/// What a command takes.
pub struct Syntax {
    pub name: &'static str,
    /// The operands as in the usage line: those in brackets may be left out, and of those with `..` there may be several.
    pub operands: &'static [&'static str],
    /// Options without a value.
    pub flags: &'static [&'static str],
    /// Options with a value.
    pub options: &'static [&'static str],
    pub short: &'static str,
    pub long: &'static str,
}

impl Syntax {
    /// Does it take so many operands?
    pub fn takes(&self, operands: usize) -> bool {
        let fewest = self.operands.iter().filter(|operand| !operand.starts_with('[')).count();
        let most = match self.operands.iter().any(|operand| operand.contains("..")) {
            true => usize::MAX,
            false => self.operands.len(),
        };
        (fewest..=most).contains(&operands)
    }

    pub fn usage(&self) -> String {
        let options = match self.flags.len() + self.options.len() {
            0 => "",
            _ => " [OPTIONS]",
        };
        let words = [&["pfs", self.name][..], self.operands].concat();
        words.join(" ") + options
    }
}

/// The flag of commands that can say what they say as JSON.
pub const JSON: &str = "--json";

/// The flag of commands that can change a disk by safe changes, in place.
pub const SAFE: &str = "--safe";

/// What is said about it.
macro_rules! safe {
    () => {
        "
  --safe          write the blocks of DISK itself, a file or a drive, so that the power may fail at any time; see pfs --help"
    };
}

/// What is said of the flag of programs.
macro_rules! json {
    () => {
        "
  --json          the same for programs, as JSON; in texts, \\xNN is any byte and \\\\ a backslash"
    };
}

/// What is said of the numbers of anodes.
macro_rules! anodes {
    () => {
        "
  in use          all but anode 0
  free            those that files and directories can have now; 3 and 4 are kept for blocks to be freed and bad blocks
  to come         those that anode blocks can still bring, as far as blocks are free
"
    };
}

/// The options of commands that make an entry.
pub const NEW_ENTRY: &[&str] = &["--comment", "--protection", "--date"];

/// What is said about them, but of the date.
macro_rules! new_entry {
    () => {
        "
  --comment TEXT  up to 79 bytes
  --protection P  the letters of ls, as rwed or ----rwe-, or a number up to 255; 0, which is ----rwed, if not given
  --date D        as YYYY-MM-DD or YYYY-MM-DDTHH:MM:SS, in UTC"
    };
}

pub const COMMANDS: &[Syntax] = &[
    Syntax {
        name: "info",
        operands: &["DISK.."],
        flags: &[JSON],
        options: &[],
        short: "name, date, size, free blocks, files, directories and anodes",
        long: concat!("Prints each disk's name, date and protection, its blocks and bytes, its free blocks, files and directories (with the
root), and its anodes: each file, each directory and each piece of one needs an anode. They are kept in up to 42 anode
blocks of 82 anodes, and where none is free the disk takes another anode block by itself, as long as a block is free:
", anodes!(), json!()),
    },
    Syntax {
        name: "check",
        operands: &["DISK.."],
        flags: &["--where", JSON],
        options: &[],
        short: "whether the disk is sound",
        long: concat!("Prints 0 for a disk that is accepted, else the number of the first rule that it breaks, and in words what it means. Of
several disks the exit status is the highest.

Accepted means that every block has one owner, that directories, names and sizes fit together, and that no two names of a
directory differ only in capitals A to Z. It says nothing of the bytes inside files: the format keeps no sum to check them
by, so a file that was stored wrong, or changed by hand, is accepted like any other.

  --where         name the block, anode, entry or path of the first fault. The number comes from the proved check. The
                  place comes from a model of the rules that is tested and not proved; where it finds another number, it
                  says so and names no place", json!()),
    },
    Syntax {
        name: "ls",
        operands: &["DISK", "[PATH..]"],
        flags: &[JSON],
        options: &[],
        short: "the entries of a directory",
        long: concat!("Prints type, size, protection, date and time, name and comment of each entry of the directory PATH, or of the root. A
file, or several entries, are shown as themselves.

Dates and times are shown as they are stored. This program stores UTC; a machine that kept its own clock stored that.
A name is in quotes unless it is a plain word, a comment always. In both \\xNN is a byte that cannot be shown, or a quote.
", json!()),
    },
    Syntax {
        name: "tree",
        operands: &["DISK", "[PATH]"],
        flags: &[JSON],
        options: &[],
        short: "all directories and files below one",
        long: concat!("Prints the directories and files below PATH, or of the whole disk, with the sizes of files. A name is in quotes unless
it is a plain word.
", json!()),
    },
    Syntax {
        name: "cat",
        operands: &["DISK", "PATH.."],
        flags: &[],
        options: &[],
        short: "print files",
        long: "Writes the bytes of files to standard output, one after the other.",
    },
    Syntax {
        name: "get",
        operands: &["DISK", "PATH..", "[FILE]"],
        flags: &["-r", "--force", "--no-times"],
        options: &[],
        short: "copy files from the disk",
        long: "Copies a file of the disk to FILE (- is standard output), to a file of the same name in the folder FILE, or in this
folder. Several files go into a folder. Each has the date and time that it has on the disk, read as UTC; where no clock
shows them, those of the copy.

  -r              take directories too, with all that is in them
  --force         replace files that are there
  --no-times      leave date and time those of the copy",
    },
    Syntax {
        name: "put",
        operands: &["DISK", "FILE..", "[DIR/]"],
        flags: &["-r", "--force", "--keep", "--no-times", SAFE],
        options: &["--as", "--comment", "--protection", "--date"],
        short: "copy files onto the disk",
        long: concat!("Copies files into DIR, a directory of the disk, or a single one into the root. All of them are copied, or none: the
disk file is replaced once. A file has its own date and time on the disk, in UTC.

  --as PATH       the one FILE, or - for standard input, goes to PATH
  -r              take folders too, with all that is in them
  --force         replace files that are there; they get the new date, protection and comment
  --keep          replace them too, but they keep date, protection and comment
  --no-times      the date and time of the clock, not of the file",
            new_entry!(), "; the file's own if not given", safe!(), "

With --safe a new file comes in three changes: it is made, it gets its size, and it is written, for which it must fit on the
disk twice. Cut off between them it is there without bytes, or with zeros for bytes. --force is not taken, since the old file
would be gone before the new one is there. With --keep a file that is there has all of its old bytes or all of its new ones,
wherever it is cut off: one of the same size is written by one change; one that comes longer gets its size first, so that
zeros may stand behind the old bytes; one that comes shorter is written first, so that old bytes may stand behind the new
ones. Of several files those before the cut are there."),
    },
    Syntax {
        name: "mkdir",
        operands: &["DISK", "PATH.."],
        flags: &["-p", SAFE],
        options: NEW_ENTRY,
        short: "make directories",
        long: concat!("Makes empty directories.

  -p              make those that lead to them too, and say nothing of those that are there",
            new_entry!(), "; the clock's if not given", safe!()),
    },
    Syntax {
        name: "rm",
        operands: &["DISK", "PATH.."],
        flags: &["-r", SAFE],
        options: &[],
        short: "remove files and directories",
        long: concat!("Removes files and empty directories: all that are named, or none.

  -r              take directories with all that is in them", safe!(), "

With --safe each file and each directory goes by a change of its own; those before a cut are gone."),
    },
    Syntax {
        name: "mv",
        operands: &["DISK", "FROM..", "TO"],
        flags: &["--force"],
        options: &[],
        short: "move or rename within the disk",
        long: "Moves files and directories to the directory TO, or one of them to the path TO, which is then its new name and may be the
old one with other capitals. They keep date, protection and comment. All of them are moved, or none.

  --force         replace files that are there",
    },
    Syntax {
        name: "cp",
        operands: &["DISK", "FROM..", "TO"],
        flags: &["-r", "--force"],
        options: &[],
        short: "copy within the disk",
        long: "Copies files into the directory TO, or one of them to the path TO. They keep date, protection and comment. All of them
are copied, or none.

  -r              take directories too, with all that is in them
  --force         replace files that are there",
    },
    Syntax {
        name: "resize",
        operands: &["DISK", "PATH", "SIZE"],
        flags: &[SAFE],
        options: &[],
        short: "give a file another size",
        long: concat!("Gives a file a size in bytes; with a K behind it in units of 1024 bytes, with an M of 1048576. Bytes that come new
are 0.
", safe!()),
    },
    Syntax {
        name: "format",
        operands: &["DISK"],
        flags: &["--force"],
        options: &["--blocks", "--reserved", "--anode-blocks", "--name", "--protection", "--date"],
        short: "make an empty disk",
        long: "Makes a file with an empty disk.

  --blocks N        512-byte blocks, 5 to 65535; 1760 if not given, or as many as DISK has
  --reserved L      last block of the part where directories go first; 63 of 1760 blocks, and that share of others
  --anode-blocks K  1 to 42 to begin with; one for each 880 blocks if not given, and more come as they are needed
  --name NAME       1 to 31 bytes; the file's name without its ending if not given
  --protection P    the disk's protection bits, as letters or a number up to 65535; 0 if not given
  --date D          as YYYY-MM-DD or YYYY-MM-DDTHH:MM:SS; the clock's date and time (UTC) if not given
  --force           replace DISK if it is there; all that it holds is lost",
    },
    Syntax {
        name: "df",
        operands: &["DISK"],
        flags: &[JSON],
        options: &[],
        short: "how many blocks and anodes are used for what",
        long: concat!("Prints how many blocks, bytes and percent of the disk are free, in files, in directories, anode blocks, start
blocks, to be freed, and bad. Then how many anodes there are; each file, each directory and each piece of one needs one:
", anodes!(), json!()),
    },
    Syntax {
        name: "map",
        operands: &["DISK"],
        flags: &["--svg", "--owners", JSON],
        options: &[],
        short: "who owns each block",
        long: concat!("Draws the disk block by block: . free, F file, D directory, A anode block, S start block, - to be freed, X bad.
A bar stands behind the last reserved block.

  --owners        list the runs of blocks with their owners instead
  --svg           write a picture (SVG) to standard output instead", json!()),
    },
    Syntax {
        name: "report",
        operands: &["DISK.."],
        flags: &["--json"],
        options: &[],
        short: "the totals of a shift: many disks added up",
        long: "Prints a line for each disk: its free blocks, files, directories (with the root), longest run of free blocks, and
files that lie in more than one run of blocks; or, for a disk that the check refuses, the number and in words what it
means. Then the sums over the accepted disks, how many were accepted and refused under each number, and the mean file
size as two whole numbers, bytes and files. A file that cannot be read is named and counted nowhere; the exit status is
then 2. At most 100,000 disks are taken.

  --json          the same for programs, as JSON",
    },
    Syntax {
        name: "diff",
        operands: &["DISK", "DISK"],
        flags: &[JSON],
        options: &[],
        short: "how two disks differ",
        long: concat!("Prints a line for each file or directory that only one of the disks has, or that both have and that differs, and nothing
for two disks that hold the same. A to Z are the same as a to z in what is one path; the first disk's path is shown. First
come the entries of the first disk, directory by directory from the root, then those that only the second has. What differs
is said in this order, with the values of the first disk and of the second:

  type            as file, directory: one is a file, the other a directory; what is below it is only in one of them
  size            of two files, in bytes
  bytes           how many bytes of two files differ, and from which byte on, counted from 0; past the end of the shorter
                  one every byte differs
  name            the same but for capitals
  date            date and time
  protection      the letters of ls
  comment         both texts

Where files lie on the disk, the order in a directory, and the name and size of the disk are not compared.

As with the program diff, the exit status is 0 if the disks are the same, 1 if they differ, and 2 after any trouble: bad
usage, a file that cannot be read, or a disk that is damaged.
", json!()),
    },
    Syntax {
        name: "bitmap",
        operands: &["DISK"],
        flags: &[],
        options: &["--check"],
        short: "free space as the hard disk edition's bitmap",
        long: "Writes the disk's free space to standard output as the bitmap of the hard disk edition: a block of 1024 bytes for
every 8096 blocks behind last reserved, a set bit for a free one. It is empty if no block lies behind last reserved.

  --check FILE    compare the bitmap in FILE with the disk instead, and say the first byte that differs, the bitmap
                  block it is in and the disk block it speaks of; the exit status is then 1",
    },
    Syntax {
        name: "settings",
        operands: &["widen|narrow|show", "FILE", "[OUT]"],
        flags: &[],
        options: &[],
        short: "convert or show a file of conditioning times",
        long: "Works on a settings file outside any disk: up to 512 records, each a key with its seconds, keys rising.
widen converts old records (mark S1, two bytes of seconds) to new ones (S2, four bytes), narrow converts them back, and
both keep every key and its seconds. The result replaces OUT, or FILE if OUT is left out, as a whole or not at all.
show prints the keys and times of a file of either form.

Two bytes hold at most 65,535 s, which is 18:12:15, so a day's conditioning needs the new form. narrow refuses a file with
a longer time (51) and names its first record, since cut to two bytes a day (24:00:00) would come out as 5:47:44.

Records count from 1 and bytes from 0 in what is said about a file that is refused.",
    },
    Syntax {
        name: "man",
        operands: &[],
        flags: &[],
        options: &[],
        short: "print the manual page",
        long: "Prints the manual page, for `pfs man | man -l -` or for the folder man1 of an installation.",
    },
    Syntax {
        name: "completion",
        operands: &["bash|fish"],
        flags: &[],
        options: &[],
        short: "print what completes command lines in a shell",
        long: "Prints the completion of commands and options for a shell: `source <(pfs completion bash)`, or
`pfs completion fish | source`.",
    },
];

/// The help of the whole program.
pub fn whole() -> String {
    let mut help = String::from("pfs COMMAND DISK ...: PFS floppy disks in image files\n\n");
    for syntax in COMMANDS {
        help += &format!("  {:<12}{}\n", syntax.name, syntax.short);
    }
    help + "
`pfs help COMMAND` tells more, and `pfs --version` which program this is.

PATH is like recipes/pack7, and A to Z are the same as a to z in it: a disk takes BATCH7 and Batch7 for one name, and shows
it as it was made. In PATH * stands for any letters of a name and ? for one, unless the name is there just so; quote it for
the shell. In paths, names and comments \\xNN is any byte and \\\\ a backslash. With --latin1 they are text in Latin-1,
else in UTF-8. A disk that is only looked at may be -, which is standard input.

Exit status: 0 done, 1 refused by the disk's rules, 2 bad usage or a file that cannot be read or written, 3 a damaged disk.
A command that changes a disk replaces the disk file as a whole, or leaves it as it was.

With --safe, before the command or behind it, put, mkdir, rm and resize write the blocks of DISK itself, a file or a drive.
Each change of an entry goes to blocks that are free and takes effect when the root block is written, the last of all, so that
the power may fail after any block: the disk is sound then, and holds what it held before that change or after it. The change
needs as many free blocks at the same time as it writes: the whole file, a block of the directory, and every anode block. It
brings no more anodes. If any change of the command is refused, nothing is written at all; if a write fails, the changes
before it stay.
"
}

/// The help of one command.
pub fn one(syntax: &Syntax) -> String {
    format!("usage: {}\n\n{}\n", syntax.usage(), syntax.long)
}
