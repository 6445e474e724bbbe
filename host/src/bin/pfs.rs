//! The command line `pfs` over the proved library. `pfs --help` tells what it does.

use std::ffi::OsString;
use std::io::{self, BufWriter};
use std::process::ExitCode;

use ovenknit_host::cli;
use ovenknit_host::ffi::Proved;

fn main() -> ExitCode {
    let words: Vec<OsString> = std::env::args_os().skip(1).collect();
    let mut out = BufWriter::new(io::stdout().lock());
    ExitCode::from(cli::run::<Proved>(&words, &mut out, &mut io::stderr()))
}
