//! The calls of the library as values. A history of them can be run on the model, on the proved library, or on
//! both side by side. [`Call`] carries the arguments, [`Library`] is whoever runs them.

/// The bytes of a block.
pub const BLOCK: usize = 512;
/// The entries that an anode table needs.
pub const ANODES: usize = 3_444;
/// The type of an entry that is a file.
pub const FILE: u8 = 253;
/// The type of an entry that is a directory.
pub const DIRECTORY: u8 = 2;
/// The number of the root directory.
pub const ROOT: u16 = 5;
/// The numbers that the totals of a report have.
pub const TOTALS: usize = 24;
/// The bytes of a block write in the list of a safe call: the block's number, and what it gets.
pub const BLOCK_WRITE: usize = 2 + BLOCK;

/// When something was made: days since 1 January 1978, minutes of the day, ticks of 1/50 second.
#[derive(Clone, Copy, Debug, Default, PartialEq, Eq)]
pub struct Stamp {
    pub day: u16,
    pub minute: u16,
    pub tick: u16,
}

impl Stamp {
    pub fn new(day: u16, minute: u16, tick: u16) -> Self {
        Stamp { day, minute, tick }
    }
}

/// A call with its arguments; the image and the tables are lent when it runs.
#[derive(Clone, Debug, PartialEq, Eq)]
pub enum Call {
    Check,
    Summary,
    Format {
        last_reserved: u16,
        anode_blocks: u16,
        name: Vec<u8>,
        stamp: Stamp,
        protection: u16,
    },
    Read {
        directory: u16,
        name: Vec<u8>,
        offset: u64,
        length: usize,
    },
    List {
        directory: u16,
        place: u64,
    },
    Make {
        directory: u16,
        kind: u8,
        name: Vec<u8>,
        comment: Vec<u8>,
        stamp: Stamp,
        protection: u8,
    },
    Resize {
        directory: u16,
        name: Vec<u8>,
        size: u64,
    },
    Write {
        directory: u16,
        name: Vec<u8>,
        offset: u64,
        data: Vec<u8>,
    },
    Remove {
        directory: u16,
        name: Vec<u8>,
    },
    Bitmap {
        length: usize,
    },
    BitmapDiffers {
        bitmap: Vec<u8>,
    },
    Find {
        directory: u16,
        name: Vec<u8>,
    },
    Label,
    Report {
        totals: [u64; TOTALS],
    },
    /// The safe calls: the arguments of the call without it, and the bytes of the buffer for the block writes.
    SafeMake {
        directory: u16,
        kind: u8,
        name: Vec<u8>,
        comment: Vec<u8>,
        stamp: Stamp,
        protection: u8,
        room: usize,
    },
    SafeResize {
        directory: u16,
        name: Vec<u8>,
        size: u64,
        room: usize,
    },
    SafeWrite {
        directory: u16,
        name: Vec<u8>,
        offset: u64,
        data: Vec<u8>,
        room: usize,
    },
    SafeRemove {
        directory: u16,
        name: Vec<u8>,
        room: usize,
    },
}

impl Call {
    pub fn label(&self) -> &'static str {
        match self {
            Call::Check => "check",
            Call::Summary => "summary",
            Call::Format { .. } => "format",
            Call::Read { .. } => "read",
            Call::List { .. } => "list",
            Call::Make { .. } => "make",
            Call::Resize { .. } => "resize",
            Call::Write { .. } => "write",
            Call::Remove { .. } => "remove",
            Call::Bitmap { .. } => "bitmap",
            Call::BitmapDiffers { .. } => "bitmap_differs",
            Call::Find { .. } => "find",
            Call::Label => "label",
            Call::Report { .. } => "report",
            Call::SafeMake { .. } => "safe_make",
            Call::SafeResize { .. } => "safe_resize",
            Call::SafeWrite { .. } => "safe_write",
            Call::SafeRemove { .. } => "safe_remove",
        }
    }

    /// Is it one of those that may change the image?
    pub fn changes(&self) -> bool {
        matches!(
            self,
            Call::Format { .. }
                | Call::Make { .. }
                | Call::Resize { .. }
                | Call::Write { .. }
                | Call::Remove { .. }
                | Call::SafeMake { .. }
                | Call::SafeResize { .. }
                | Call::SafeWrite { .. }
                | Call::SafeRemove { .. }
        )
    }

    /// The safe call for a change, with so many bytes for its block writes; nothing for a call that has none.
    pub fn safely(&self, room: usize) -> Option<Call> {
        Some(match self.clone() {
            Call::Make { directory, kind, name, comment, stamp, protection } => {
                Call::SafeMake { directory, kind, name, comment, stamp, protection, room }
            }
            Call::Resize { directory, name, size } => Call::SafeResize { directory, name, size, room },
            Call::Write { directory, name, offset, data } => {
                Call::SafeWrite { directory, name, offset, data, room }
            }
            Call::Remove { directory, name } => Call::SafeRemove { directory, name, room },
            _ => return None,
        })
    }

    /// A safe call with another buffer; any other call as it is.
    pub fn with_room(&self, bytes: usize) -> Call {
        let mut call = self.clone();
        match &mut call {
            Call::SafeMake { room, .. }
            | Call::SafeResize { room, .. }
            | Call::SafeWrite { room, .. }
            | Call::SafeRemove { room, .. } => *room = bytes,
            _ => {}
        }
        call
    }

    /// The bytes that a safe call is lent for its block writes; none for any other.
    pub fn room(&self) -> usize {
        match self {
            Call::SafeMake { room, .. }
            | Call::SafeResize { room, .. }
            | Call::SafeWrite { room, .. }
            | Call::SafeRemove { room, .. } => *room,
            _ => 0,
        }
    }
}

/// What buffers hold before a call.
pub const UNREAD: u8 = 0xA5;
const UNWRITTEN: u32 = 0xA5A5_A5A5;
pub const UNCOUNTED: u64 = 0xA5A5_A5A5_A5A5_A5A5;

/// The buffers that some calls fill; any other call leaves them.
#[derive(Clone, Debug, PartialEq, Eq)]
pub struct Output {
    /// What a done read gives, or the bitmap; a refused call leaves it.
    pub bytes: Vec<u8>,
    /// What summary counts: blocks, free blocks, files, directories with the root. Zeros after a refusal.
    pub counts: [u32; 4],
    /// The entry that list or find gives: type, anode, size, day, minute, tick, protection, name offset in the image,
    /// name length, comment offset in the image, comment length. Zeros after a refusal.
    pub entry: [u32; 11],
    /// What the comparison with a bitmap says: 1 if a byte differs, and its place. Zeros otherwise.
    pub difference: [u32; 2],
    /// The label of the disk: last reserved, day, minute, tick, protection, the name's offset in the image and length.
    /// Zeros after a refusal.
    pub label: [u32; 7],
    /// The totals of a report, which are lent with what they hold; a call of number 31 leaves them.
    pub totals: [u64; TOTALS],
    /// What a report counts on this disk: free blocks, files, directories with the root, the longest free run, files in
    /// more than one run. Zeros after a refusal of the check; 31 leaves them.
    pub disk: [u64; 5],
    /// The block writes of a safe call, in their order: each a number of two bytes and the bytes of the block. A refused
    /// call leaves it, and what lies behind the list always stays.
    pub writes: Vec<u8>,
    /// How many block writes there are; 0 after a refusal.
    pub count: [u32; 1],
}

impl Output {
    /// Buffers for a call, with [`UNREAD`] in every byte but the totals that it comes with.
    pub fn for_call(call: &Call) -> Self {
        let length = match call {
            Call::Read { length, .. } | Call::Bitmap { length } => *length,
            _ => 0,
        };
        Output {
            bytes: vec![UNREAD; length],
            counts: [UNWRITTEN; 4],
            entry: [UNWRITTEN; 11],
            difference: [UNWRITTEN; 2],
            label: [UNWRITTEN; 7],
            totals: match call {
                Call::Report { totals } => *totals,
                _ => [UNCOUNTED; TOTALS],
            },
            disk: [UNCOUNTED; 5],
            writes: vec![UNREAD; call.room()],
            count: [UNWRITTEN; 1],
        }
    }
}

/// A block table and an anode table, as long as the calls on an image need them.
pub fn tables(image: &[u8]) -> (Vec<u16>, Vec<u16>) {
    (vec![0; image.len() / BLOCK], vec![0; ANODES])
}

/// What a call is lent to work on. Calls that only look do not write to the image; format is lent no tables.
pub struct Lent<'a> {
    pub image: &'a mut [u8],
    pub blocks: &'a mut [u16],
    pub anodes: &'a mut [u16],
}

/// A library for PFS floppy disks.
pub trait Library {
    /// Runs a call and answers its number. A read and a bitmap fill all of `output.bytes`, which must
    /// have the call's length.
    fn answer(call: &Call, lent: Lent, output: &mut Output) -> u32;
}

/// What a call handed back besides the image and the tables.
#[derive(Clone, Debug, PartialEq, Eq)]
pub struct Outcome {
    pub answer: u32,
    pub output: Output,
}

/// Runs a call on a library, with fresh buffers for its output.
pub fn run<L: Library>(call: &Call, image: &mut [u8], blocks: &mut [u16], anodes: &mut [u16]) -> Outcome {
    let mut output = Output::for_call(call);
    let answer = L::answer(call, Lent { image, blocks, anodes }, &mut output);
    Outcome { answer, output }
}
