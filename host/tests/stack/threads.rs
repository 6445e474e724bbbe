//! The proved library, each call in a thread of its own.

use std::thread;

use ovenknit_host::calls::{Call, Lent, Library, Output};
use ovenknit_host::differences::{Comparer, NUMBERS};
use ovenknit_host::ffi::Proved;
use ovenknit_host::settings::{Conversion, Converter};
use ovenknit_host::stack::needed;

/// Each call in a thread that has as much stack as the call is said to need.
///
/// Nothing is added for the thread: what the system and Rust take to start it, some 5 KiB, comes out of the same stack.
/// The sizes must be above the least stack that Rust gives a thread, some 24 KiB on Linux, or the thread would have more.
pub struct Threads;

impl Library for Threads {
    fn answer(call: &Call, lent: Lent, output: &mut Output) -> u32 {
        in_thread(call.label(), || <Proved as Library>::answer(call, lent, output))
    }
}

impl Converter for Threads {
    fn answer(conversion: Conversion, file: &[u8], out: &mut [u8], fields: &mut [u32; 2]) -> u32 {
        in_thread(conversion.word(), || <Proved as Converter>::answer(conversion, file, out, fields))
    }
}

impl Comparer for Threads {
    fn compare(first: Lent, second: Lent, place: u64, fields: &mut [u32; 1 + NUMBERS]) -> u32 {
        in_thread("compare", || Proved::compare(first, second, place, fields))
    }

    fn differences(first: Lent, second: Lent, place: u64, out: &mut [u32], fields: &mut [u32; 2]) -> u32 {
        in_thread("differences", || Proved::differences(first, second, place, out, fields))
    }
}

/// Runs it in a thread that has the stack of the call of this label.
fn in_thread(label: &str, run: impl FnOnce() -> u32 + Send) -> u32 {
    thread::scope(|scope| {
        let thread = thread::Builder::new().stack_size(needed(label)).spawn_scoped(scope, run);
        thread.expect("the thread starts").join().expect("the thread ends")
    })
}
