//! The refusals that histories must meet.

/// Every refusal from 20 up but 28, by every call that can give it.
pub const REFUSALS: [(u32, &str); 27] = [
    (20, "format"),
    (20, "make"),
    (21, "read"),
    (21, "list"),
    (21, "find"),
    (21, "make"),
    (21, "resize"),
    (21, "write"),
    (21, "remove"),
    (22, "read"),
    (22, "list"),
    (22, "find"),
    (22, "resize"),
    (22, "write"),
    (22, "remove"),
    (23, "make"),
    (24, "read"),
    (24, "resize"),
    (24, "write"),
    (25, "remove"),
    (26, "read"),
    (26, "write"),
    (27, "make"),
    (27, "resize"),
    (31, "report"),
    (40, "bitmap"),
    (40, "bitmap_differs"),
];

/// The same for 28.
pub const NO_ANODE: [(u32, &str); 3] = [(28, "make"), (28, "resize"), (28, "remove")];

/// Every refusal from 20 up by every safe call that can give it.
pub const SAFE_REFUSALS: [(u32, &str); 25] = [
    (20, "safe_make"),
    (21, "safe_make"),
    (21, "safe_resize"),
    (21, "safe_write"),
    (21, "safe_remove"),
    (22, "safe_resize"),
    (22, "safe_write"),
    (22, "safe_remove"),
    (23, "safe_make"),
    (24, "safe_resize"),
    (24, "safe_write"),
    (25, "safe_remove"),
    (26, "safe_write"),
    (27, "safe_make"),
    (27, "safe_resize"),
    (27, "safe_write"),
    (27, "safe_remove"),
    (28, "safe_make"),
    (28, "safe_resize"),
    (28, "safe_write"),
    (28, "safe_remove"),
    (32, "safe_make"),
    (32, "safe_resize"),
    (32, "safe_write"),
    (32, "safe_remove"),
];

/// The safe calls, done.
pub const SAFE_DONE: [(u32, &str); 4] =
    [(0, "safe_make"), (0, "safe_resize"), (0, "safe_write"), (0, "safe_remove")];
