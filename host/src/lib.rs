//! The host side of the PFS floppy disk library, each layer above those that it uses:
//!
//! * [`calls`]: the calls of the library as values, and the trait of whoever runs them.
//! * `ffi`, with the feature `proved`: the proved library behind that trait.
//! * [`stack`]: how much stack its calls need.
//! * [`refusals`], [`disk`]: the numbers in words, and a disk with its tables behind safe methods.
//! * [`safe`]: the changes as lists of block writes, for a disk that is kept where the power may fail.
//! * [`names`]: which names a disk takes for one.
//! * [`anodes`]: how many anodes a disk has, and how many more it can get.
//! * [`report`]: the totals of a shift report.
//! * [`bitmap`]: where the bytes of the hard disk edition's bitmap belong.
//! * [`differences`]: how two disks differ, and the trait of whoever compares them.
//! * [`settings`]: settings files, and the trait of whoever converts them.
//! * [`cli`]: the command line `pfs`.
//!
//! * [`model`]: the rules of the disks behind the same trait, written from the paper alone in ordinary Rust. The proved
//!   library is compared with it.
//!
//! What only the tests and the benchmark need is public for them, but not part of what is promised, and left out of this
//! documentation: `rng`, the small deterministic generator behind all that is random; `tree`, what a disk should hold, as
//! a plain tree in memory; `shapes`, generators of disk images: formatted ones, accepted ones that format never makes, and
//! damaged ones; `starts` and `histories`, the disks that histories start from, and random calls, often at the very edge;
//! `met`, what the changes and names among them met; `compare`, a library against the model, call by call; `pairs`,
//! the same for two disks at a time; `cuts`, safe changes cut off after every block write.

#[cfg(feature = "proved")]
pub mod ffi;

pub mod anodes;
pub mod bitmap;
pub mod calls;
pub mod cli;
#[doc(hidden)]
pub mod compare;
#[doc(hidden)]
pub mod cuts;
pub mod differences;
pub mod disk;
#[doc(hidden)]
pub mod histories;
#[doc(hidden)]
pub mod met;
pub mod model;
pub mod names;
#[doc(hidden)]
pub mod pairs;
pub mod refusals;
pub mod report;
#[doc(hidden)]
pub mod rng;
pub mod safe;
pub mod settings;
#[doc(hidden)]
pub mod shapes;
pub mod stack;
#[doc(hidden)]
pub mod starts;
#[doc(hidden)]
pub mod tree;
