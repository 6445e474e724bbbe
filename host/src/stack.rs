//! How much stack each call of the proved library needs. `include/pfs.h`, the front page and the pages under `docs/` say
//! the same, and the tests hold them to it.

/// Each call by its label, with the KiB of stack that a thread must have to make it. Upper bounds with room to spare: more
/// than the call takes, the start of the thread with it.
pub const NEEDED: [(&str, usize); 22] = [
    ("format", 32),
    ("widen", 32),
    ("narrow", 32),
    ("check", 96),
    ("summary", 96),
    ("read", 96),
    ("list", 96),
    ("find", 96),
    ("label", 96),
    ("write", 96),
    ("bitmap", 96),
    ("bitmap_differs", 96),
    ("report", 96),
    ("make", 128),
    ("resize", 128),
    ("remove", 128),
    ("safe_make", 128),
    ("safe_resize", 128),
    ("safe_write", 128),
    ("safe_remove", 128),
    ("compare", 192),
    ("differences", 192),
];

/// The bytes of stack that a thread must have to make the call of this label.
pub fn needed(label: &str) -> usize {
    let size = NEEDED.iter().find(|size| size.0 == label);
    size.expect("every call has a size").1 * 1024
}
