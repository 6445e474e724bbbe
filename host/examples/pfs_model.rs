//! The command line over the model of the rules: for a quick try without the toolchain and the proofs. Nothing that it does
//! is proved, and it says so on every run. `cargo run --example pfs_model -- --help`

use std::ffi::OsString;
use std::io::{self, BufWriter, Write};
use std::process::ExitCode;

use ovenknit_host::cli;
use ovenknit_host::model::Model;

/// What is said first, on every run.
pub const LABEL: &str = "UNPROVED MODEL: for a try only; the proved program is `pfs`\n";

/// Runs a command line on the model, and answers its exit status.
pub fn run(words: &[OsString], out: &mut dyn Write, errors: &mut dyn Write) -> u8 {
    // If it cannot be said, nothing is done.
    match errors.write_all(LABEL.as_bytes()) {
        Ok(()) => cli::run::<Model>(words, out, errors),
        Err(_) => 2,
    }
}

fn main() -> ExitCode {
    let words: Vec<OsString> = std::env::args_os().skip(1).collect();
    let mut out = BufWriter::new(io::stdout().lock());
    ExitCode::from(run(&words, &mut out, &mut io::stderr()))
}
