//! The model against itself: the linear check against the naive one, the shapes against what they are there for, and
//! random histories of calls, safe changes cut off anywhere, and the differences of two disks, against a plain tree in memory.

mod checks;
mod differences;
mod histories;
mod history;
mod safe;
mod shapes;
