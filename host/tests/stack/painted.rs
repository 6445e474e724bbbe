//! The proved library on stacks painted with a pattern, which show how far down each call came.

use std::collections::BTreeMap;
use std::ffi::{c_int, c_void};
use std::ptr::null_mut;
use std::sync::Mutex;

use ovenknit_host::calls::{Call, Lent, Library, Output};
use ovenknit_host::differences::{Comparer, NUMBERS};
use ovenknit_host::ffi::Proved;
use ovenknit_host::settings::{Conversion, Converter};

/// A piece of a stack, aligned as systems like it.
#[derive(Clone)]
#[repr(C, align(4096))]
struct Page([u8; 4096]);

/// Far more than any call needs: 1 MiB.
const PAGES: usize = 256;
const STACK: usize = PAGES * size_of::<Page>();
const PAINT: u8 = 0xA5;

/// At least as large as the system's type.
#[repr(C)]
struct Attributes([u64; 32]);

extern "C" {
    fn pthread_attr_init(attributes: *mut Attributes) -> c_int;
    fn pthread_attr_setstack(attributes: *mut Attributes, stack: *mut c_void, size: usize) -> c_int;
    fn pthread_attr_destroy(attributes: *mut Attributes) -> c_int;
    fn pthread_create(
        thread: *mut usize,
        attributes: *const Attributes,
        start: extern "C" fn(*mut c_void) -> *mut c_void,
        argument: *mut c_void,
    ) -> c_int;
    fn pthread_join(thread: usize, result: *mut *mut c_void) -> c_int;
}

/// What a thread is to do, and what came of it.
struct Work<F, T> {
    run: Option<F>,
    result: Option<T>,
}

extern "C" fn start<F: FnOnce() -> T, T>(work: *mut c_void) -> *mut c_void {
    // SAFETY: `on_painted_stack` hands on its own `Work`, and leaves it alone until the thread has ended.
    let work = unsafe { &mut *work.cast::<Work<F, T>>() };
    work.result = work.run.take().map(|run| run());
    null_mut()
}

/// Runs it in a thread of its own. Gives also how many bytes of its stack lie between the top and the last byte that was
/// written, what the system puts there for the thread with them.
fn on_painted_stack<F: FnOnce() -> T + Send, T: Send>(run: F) -> (T, usize) {
    let mut stack = vec![Page([PAINT; 4096]); PAGES];
    let mut work = Work { run: Some(run), result: None };
    let (mut attributes, mut thread) = (Attributes([0; 32]), 0);
    // SAFETY: stack and work outlive the thread, and nobody else touches them until it has ended.
    unsafe {
        assert_eq!(pthread_attr_init(&mut attributes), 0);
        assert_eq!(pthread_attr_setstack(&mut attributes, stack.as_mut_ptr().cast(), STACK), 0);
        assert_eq!(pthread_create(&mut thread, &attributes, start::<F, T>, (&raw mut work).cast()), 0);
        assert_eq!(pthread_join(thread, null_mut()), 0);
        assert_eq!(pthread_attr_destroy(&mut attributes), 0);
    }
    let untouched = stack.iter().flat_map(|page| &page.0).take_while(|&&byte| byte == PAINT).count();
    (work.result.expect("the thread has run"), STACK - untouched)
}

/// The most stack that each call has used, by its label.
static USED: Mutex<BTreeMap<&str, usize>> = Mutex::new(BTreeMap::new());

/// Each call in a thread on a painted stack.
pub struct Painted;

impl Library for Painted {
    fn answer(call: &Call, lent: Lent, output: &mut Output) -> u32 {
        measured(call.label(), || <Proved as Library>::answer(call, lent, output))
    }
}

impl Converter for Painted {
    fn answer(conversion: Conversion, file: &[u8], out: &mut [u8], fields: &mut [u32; 2]) -> u32 {
        measured(conversion.word(), || <Proved as Converter>::answer(conversion, file, out, fields))
    }
}

impl Comparer for Painted {
    fn compare(first: Lent, second: Lent, place: u64, fields: &mut [u32; 1 + NUMBERS]) -> u32 {
        measured("compare", || Proved::compare(first, second, place, fields))
    }

    fn differences(first: Lent, second: Lent, place: u64, out: &mut [u32], fields: &mut [u32; 2]) -> u32 {
        measured("differences", || Proved::differences(first, second, place, out, fields))
    }
}

/// Runs the call of this label on a painted stack, and notes how much it used.
fn measured(label: &'static str, run: impl FnOnce() -> u32 + Send) -> u32 {
    let (answer, used) = on_painted_stack(run);
    let mut most = USED.lock().expect("no thread has failed");
    let most = most.entry(label).or_default();
    *most = used.max(*most);
    answer
}

impl Painted {
    /// The most stack that a thread has used for each call so far, by the call's label.
    pub fn used() -> BTreeMap<&'static str, usize> {
        USED.lock().expect("no thread has failed").clone()
    }

    /// The stack that a thread uses which makes no call.
    pub fn used_by_thread() -> usize {
        on_painted_stack(|| ()).1
    }
}
