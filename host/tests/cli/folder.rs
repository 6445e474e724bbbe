//! A folder of its own for each test, with the program run in it.

use std::fs;
use std::io::Write;
use std::path::{Path, PathBuf};
use std::process::{Child, Command, Stdio};
use std::time::{Duration, UNIX_EPOCH};

pub struct Folder {
    path: PathBuf,
}

/// What a run of the program gave.
pub struct Run {
    pub status: i32,
    pub out: String,
    pub errors: String,
}

impl Run {
    /// Waits for the program's end.
    fn of(child: Child) -> Self {
        let output = child.wait_with_output().expect("the program ends");
        let text = |bytes: Vec<u8>| String::from_utf8(bytes).expect("the program prints UTF-8");
        Run {
            status: output.status.code().expect("the program ends by itself"),
            out: text(output.stdout),
            errors: text(output.stderr),
        }
    }
}

impl Folder {
    /// An empty folder; the name must be the test's own.
    pub fn new(name: &str) -> Self {
        let path = Path::new(env!("CARGO_TARGET_TMPDIR")).join("cli").join(name);
        let _ = fs::remove_dir_all(&path);
        fs::create_dir_all(&path).expect("the folder is made");
        Folder { path }
    }

    /// A folder with a disk of 1,760 blocks that has a directory and a file in it.
    pub fn with_disk(name: &str) -> Self {
        let folder = Folder::new(name);
        folder.write("pack7", b"180 C, 25 min\n");
        folder.done(&["format", "disk.adf", "--name", "bench 4"]);
        folder.done(&["mkdir", "disk.adf", "recipes", "--date", "2024-07-18T10:00"]);
        folder.done(&[
            "put",
            "disk.adf",
            "pack7",
            "recipes/",
            "--date=2024-07-18T10:01:02",
            "--comment",
            "white bread",
            "--protection=1",
        ]);
        folder
    }

    pub fn command(&self, words: &[&str]) -> Command {
        let mut command = Command::new(env!("CARGO_BIN_EXE_pfs"));
        command.args(words).current_dir(&self.path);
        command
    }

    fn start(&self, words: &[&str], input: Stdio) -> Child {
        let mut command = self.command(words);
        command.stdin(input).stdout(Stdio::piped()).stderr(Stdio::piped());
        command.spawn().expect("the program runs")
    }

    pub fn run(&self, words: &[&str]) -> Run {
        Run::of(self.start(words, Stdio::null()))
    }

    /// Runs it with these bytes on standard input.
    pub fn run_with_input(&self, words: &[&str], input: &[u8]) -> Run {
        let mut child = self.start(words, Stdio::piped());
        child.stdin.take().expect("it has an input").write_all(input).expect("it reads its input");
        Run::of(child)
    }

    /// Runs all of these at the same time, and gives what each gave.
    pub fn run_together(&self, commands: &[Vec<&str>]) -> Vec<Run> {
        let children: Vec<Child> = commands.iter().map(|words| self.start(words, Stdio::null())).collect();
        children.into_iter().map(Run::of).collect()
    }

    /// Runs a command that must be done, and gives what it printed.
    pub fn done(&self, words: &[&str]) -> String {
        let run = self.run(words);
        assert_eq!((run.status, run.errors.as_str()), (0, ""), "{words:?}");
        run.out
    }

    /// Runs a command that must be done, and gives the bytes that it wrote to standard output.
    pub fn output(&self, words: &[&str]) -> Vec<u8> {
        let output = self.command(words).output().expect("the program runs");
        assert!(output.status.success() && output.stderr.is_empty(), "{words:?}");
        output.stdout
    }

    /// Runs a command that must fail with this status and one line of error, and leave every file as it was.
    pub fn fails(&self, status: i32, words: &[&str]) -> String {
        let before = self.files();
        let run = self.run(words);
        assert_eq!((run.status, run.out.as_str()), (status, ""), "{words:?}: {}", run.errors);
        assert!(run.errors.starts_with("pfs: ") && run.errors.ends_with('\n'), "{:?}", run.errors);
        assert_eq!(run.errors.lines().count(), 1, "{:?}", run.errors);
        assert!(self.files() == before, "{words:?} changed a file");
        run.errors
    }

    pub fn write(&self, name: &str, bytes: &[u8]) {
        fs::write(self.path(name), bytes).expect("the file is written");
    }

    pub fn read(&self, name: &str) -> Vec<u8> {
        fs::read(self.path(name)).expect("the file is read")
    }

    /// Gives a file a date of change, in seconds since 1970.
    pub fn date(&self, name: &str, seconds: u64) {
        let file = fs::File::open(self.path(name)).expect("the file is there");
        file.set_modified(UNIX_EPOCH + Duration::from_secs(seconds)).expect("its date is set");
    }

    /// The date of change of a file, in milliseconds since 1970.
    pub fn dated(&self, name: &str) -> u128 {
        let modified = fs::metadata(self.path(name)).and_then(|metadata| metadata.modified());
        let since = modified.expect("the file is there").duration_since(UNIX_EPOCH);
        since.expect("it is of after 1970").as_millis()
    }

    pub fn path(&self, name: &str) -> PathBuf {
        self.path.join(name)
    }

    /// All files with their bytes, so that a temporary file that stays is seen.
    fn files(&self) -> Vec<(String, Vec<u8>)> {
        let entries = fs::read_dir(&self.path).expect("the folder is read");
        let names = entries.map(|entry| entry.expect("the entry is read").file_name());
        let mut names: Vec<String> = names.map(|name| name.to_string_lossy().into_owned()).collect();
        names.sort();
        names.into_iter().map(|name| (name.clone(), fs::read(self.path(&name)).unwrap_or_default())).collect()
    }

    pub fn names(&self) -> Vec<String> {
        self.files().into_iter().map(|file| file.0).collect()
    }
}
