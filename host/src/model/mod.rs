//! The rules of PFS floppy disks, from the paper alone.
//!
//! Every call has the shape of the C interface with slices in place of pointers, and answers the paper's number:
//! 0 for done, else the refusal. Inside, `Err` carries that number.
//!
//! * `layout`: where the fields are.
//! * `check`: the check, linear in blocks, anodes and entries.
//! * `space`: taking a block, and growing the anode table.
//! * `giving`: giving back whole runs.
//! * [`naive`]: the check by the words of the table, row by row and quadratic, and what a change takes and gives back on
//!   plain lists; it shares no code with the others.
//! * `calls`: the calls.
//! * `safe`: the changes as lists of block writes.
//! * `compare`: how two disks differ.
//! * `bitmap`: free space as the hard disk edition's bitmap.
//! * `report`: the shift report over many disks.
//! * `totals`: the seven kinds of blocks.
//! * `settings`: the conversions of settings files.
//! * `locate`: where the first fault of a disk is.
//! * `library`: the calls behind one trait, as the proved library has them.

mod bitmap;
mod calls;
mod check;
mod compare;
mod giving;
pub mod layout;
mod library;
mod locate;
pub mod naive;
mod report;
mod safe;
mod settings;
mod space;
mod totals;

pub use bitmap::{bitmap, bitmap_differs};
pub use calls::{find_entry, format, label, list, make, read, remove, resize, summary, write, NewEntry};
pub use check::{check, survey, Survey};
pub use library::Model;
pub use locate::locate;
pub use report::report;
pub use safe::{safe_make, safe_remove, safe_resize, safe_write, List};
pub use totals::{totals, Totals};
