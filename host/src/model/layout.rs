//! Where things are on a disk: plain readers and writers of fields. Numbers are big-endian and unsigned.

use std::ops::{Index, IndexMut};

pub const BLOCK: usize = 512;
// The fewest and the most blocks a disk has.
pub const FEWEST_BLOCKS: usize = 5;
pub const MOST_BLOCKS: usize = 65_535;

// The root block, and where its fields are.
pub const ROOT_BLOCK: u16 = 2;
pub const DISK_TYPE: [u8; 4] = *b"PFS\0";
pub const ROOT_DAY: usize = 12;
pub const ROOT_MINUTE: usize = 14;
pub const ROOT_TICK: usize = 16;
pub const ROOT_PROTECTION: usize = 18;
pub const ROOT_NAME: usize = 20;
pub const ROOT_FIRST_RESERVED: usize = 52;
pub const ROOT_LAST_RESERVED: usize = 54;
pub const ROOT_SLOTS: usize = 96;
pub const LONGEST_DISK_NAME: usize = 31;

// Anode blocks.
pub const ANODE_MARK: [u8; 2] = *b"AB";
pub const ANODE_SEQUENCE: usize = 10;
pub const FIRST_ANODE: usize = 16;
pub const ANODE_BYTES: usize = 6;
pub const ANODES_IN_BLOCK: usize = 82;
pub const SLOTS: usize = 42;
pub const ANODES: usize = SLOTS * ANODES_IN_BLOCK;

// Directory blocks.
pub const DIRECTORY_MARK: [u8; 2] = *b"DB";
pub const DIRECTORY_OWNER: usize = 12;
pub const DIRECTORY_PARENT: usize = 14;
pub const FIRST_ENTRY: usize = 16;
/// The end mark is at this byte of the block or before.
pub const LAST_END_MARK: usize = 510;

// Entries.
pub const ENTRY_TYPE: usize = 1;
pub const ENTRY_ANODE: usize = 2;
pub const ENTRY_SIZE: usize = 4;
pub const ENTRY_DAY: usize = 8;
pub const ENTRY_MINUTE: usize = 10;
pub const ENTRY_TICK: usize = 12;
pub const ENTRY_PROTECTION: usize = 14;
pub const ENTRY_NAME_LENGTH: usize = 15;
pub const ENTRY_NAME: usize = 16;
pub const LONGEST_NAME: usize = 107;
pub const LONGEST_COMMENT: usize = 79;
pub const FILE: u8 = 253;
pub const DIRECTORY: u8 = 2;

// Anodes with a meaning of their own.
pub const FREE_LIST: u16 = 1;
pub const RESERVED: u16 = 2;
pub const TO_BE_FREED: u16 = 3;
pub const BAD_BLOCKS: u16 = 4;
pub const ROOT_DIRECTORY: u16 = 5;
pub const FIRST_USER: u16 = 6;

// Owners in the block table that are no chain.
pub const OWNER_START: u16 = 65_535;
pub const OWNER_ANODES: u16 = 65_534;

pub fn word(bytes: &[u8], at: usize) -> u16 {
    u16::from_be_bytes([bytes[at], bytes[at + 1]])
}

pub fn long(bytes: &[u8], at: usize) -> u32 {
    u32::from_be_bytes([bytes[at], bytes[at + 1], bytes[at + 2], bytes[at + 3]])
}

pub fn put_word(bytes: &mut [u8], at: usize, value: u16) {
    bytes[at..at + 2].copy_from_slice(&value.to_be_bytes());
}

pub fn put_long(bytes: &mut [u8], at: usize, value: u32) {
    bytes[at..at + 4].copy_from_slice(&value.to_be_bytes());
}

/// One block of the image.
pub fn block(image: &[u8], number: u16) -> &[u8] {
    let start = usize::from(number) * BLOCK;
    &image[start..start + BLOCK]
}

/// One block of the image, to be written.
pub fn block_mut(image: &mut [u8], number: u16) -> &mut [u8] {
    let start = usize::from(number) * BLOCK;
    &mut image[start..start + BLOCK]
}

/// The number of blocks of an image that number 1 lets pass.
pub fn disk_size(image: &[u8]) -> Option<usize> {
    let blocks = image.len() / BLOCK;
    (image.len().is_multiple_of(BLOCK) && (FEWEST_BLOCKS..=MOST_BLOCKS).contains(&blocks)).then_some(blocks)
}

pub fn root(image: &[u8]) -> &[u8] {
    block(image, ROOT_BLOCK)
}

pub fn last_reserved(image: &[u8]) -> u16 {
    word(root(image), ROOT_LAST_RESERVED)
}

/// The anode block numbers of the root block, 0 in a slot without anodes.
pub fn slots(image: &[u8]) -> [u16; SLOTS] {
    let root = root(image);
    std::array::from_fn(|slot| word(root, ROOT_SLOTS + 2 * slot))
}

/// Puts a block in a slot, zeroed, marked and numbered: anodes that are all free.
pub fn put_anode_block(image: &mut [u8], slot: usize, number: u16) {
    put_word(block_mut(image, ROOT_BLOCK), ROOT_SLOTS + 2 * slot, number);
    let bytes = block_mut(image, number);
    bytes.fill(0);
    bytes[..2].copy_from_slice(&ANODE_MARK);
    put_word(bytes, ANODE_SEQUENCE, slot as u16);
}

/// The slots with anodes, and the block that each holds.
pub fn used_slots(slots: &[u16; SLOTS]) -> impl Iterator<Item = (usize, u16)> + '_ {
    slots.iter().copied().enumerate().filter(|&(_, number)| number != 0)
}

/// A run of blocks, and the anode where its chain goes on.
#[derive(Clone, Copy, Debug, PartialEq, Eq)]
pub struct Anode {
    pub count: u16,
    pub block: u16,
    pub next: u16,
}

impl Anode {
    pub const ZERO: Anode = Anode { count: 0, block: 0, next: 0 };

    pub fn new(count: u16, block: u16, next: u16) -> Self {
        Anode { count, block, next }
    }

    /// In use, but without blocks.
    pub fn empty(next: u16) -> Self {
        Anode::new(0, 65_535, next)
    }

    /// Free: all three fields are 0.
    pub fn is_free(self) -> bool {
        self == Anode::ZERO
    }

    pub fn in_use(self) -> bool {
        !self.is_free()
    }

    /// Damage: the block field is 0, but another field is not.
    pub fn is_half_cleared(self) -> bool {
        self.block == 0 && !self.is_free()
    }

    /// The block after its last one, as a whole number.
    pub fn end(self) -> usize {
        usize::from(self.block) + usize::from(self.count)
    }
}

pub fn put_anode(bytes: &mut [u8], at: usize, anode: Anode) {
    put_word(bytes, at, anode.count);
    put_word(bytes, at + 2, anode.block);
    put_word(bytes, at + 4, anode.next);
}

/// All anodes of a disk, by number. Missing ones are held as zero.
#[derive(Clone, Debug)]
pub struct AnodeTable {
    slots: [u16; SLOTS],
    anodes: Vec<Anode>,
}

impl AnodeTable {
    /// Reads the anodes; the block of every used slot must be on the disk.
    pub fn read(image: &[u8]) -> Self {
        let slots = slots(image);
        let mut anodes = vec![Anode::ZERO; ANODES];
        for (slot, number) in used_slots(&slots) {
            let fields = &block(image, number)[FIRST_ANODE..FIRST_ANODE + ANODES_IN_BLOCK * ANODE_BYTES];
            let places = &mut anodes[slot * ANODES_IN_BLOCK..(slot + 1) * ANODES_IN_BLOCK];
            for (anode, bytes) in places.iter_mut().zip(fields.chunks_exact(ANODE_BYTES)) {
                *anode = Anode::new(word(bytes, 0), word(bytes, 2), word(bytes, 4));
            }
        }
        AnodeTable { slots, anodes }
    }

    /// Writes every existing anode; the bytes of those that were not changed stay as they are. A slot that the image has
    /// empty gets its block first.
    pub fn write(&self, image: &mut [u8]) {
        let before = slots(image);
        for (slot, number) in used_slots(&self.slots) {
            if before[slot] == 0 {
                put_anode_block(image, slot, number);
            }
            let bytes = block_mut(image, number);
            for place in 0..ANODES_IN_BLOCK {
                let anode = self.anodes[slot * ANODES_IN_BLOCK + place];
                put_anode(bytes, FIRST_ANODE + place * ANODE_BYTES, anode);
            }
        }
    }

    pub fn slots(&self) -> &[u16; SLOTS] {
        &self.slots
    }

    /// The lowest slot without anodes.
    pub fn empty_slot(&self) -> Option<usize> {
        self.slots.iter().position(|&number| number == 0)
    }

    /// Gives an empty slot a block: its anodes exist from now on, and are free.
    pub fn fill_slot(&mut self, slot: usize, number: u16) {
        self.slots[slot] = number;
    }

    pub fn exists(&self, number: u16) -> bool {
        self.slots.get(usize::from(number) / ANODES_IN_BLOCK).is_some_and(|&block| block != 0)
    }

    pub fn in_use(&self, number: u16) -> bool {
        self.anodes.get(usize::from(number)).is_some_and(|anode| anode.in_use())
    }

    /// The numbers of existing anodes, upward.
    pub fn existing(&self) -> impl Iterator<Item = u16> + '_ {
        used_slots(&self.slots)
            .flat_map(|(slot, _)| slot * ANODES_IN_BLOCK..(slot + 1) * ANODES_IN_BLOCK)
            .map(|number| number as u16)
    }

    /// The anodes of a chain with their numbers. Stops after as many as there are, should the chain never end.
    pub fn chain(&self, head: u16) -> impl Iterator<Item = (u16, Anode)> + '_ {
        let first = self.in_use(head).then_some(head);
        let follow = |&number: &u16| Some(self[number].next).filter(|&next| self.in_use(next) && next != 0);
        std::iter::successors(first, follow).take(ANODES).map(|number| (number, self[number]))
    }

    /// The blocks that a chain owns, in chain order.
    pub fn chain_blocks(&self, head: u16) -> impl Iterator<Item = u16> + '_ {
        self.chain(head)
            .flat_map(|(_, anode)| usize::from(anode.block)..anode.end())
            .map(|block| block as u16)
    }
}

impl Index<u16> for AnodeTable {
    type Output = Anode;

    fn index(&self, number: u16) -> &Anode {
        &self.anodes[usize::from(number)]
    }
}

impl IndexMut<u16> for AnodeTable {
    fn index_mut(&mut self, number: u16) -> &mut Anode {
        &mut self.anodes[usize::from(number)]
    }
}

/// The length that an entry with these parts must have.
pub fn entry_length(name: usize, comment: usize) -> usize {
    (17 + name + comment).next_multiple_of(2)
}

pub fn good_type(kind: u8) -> bool {
    kind == FILE || kind == DIRECTORY
}

pub fn good_name(name: &[u8]) -> bool {
    (1..=LONGEST_NAME).contains(&name.len()) && !name.iter().any(|byte| matches!(byte, 0 | b':' | b'/'))
}

/// A name with A to Z folded onto a to z, and no other byte.
pub fn folded(name: &[u8]) -> Vec<u8> {
    let fold = |&byte: &u8| match byte {
        b'A'..=b'Z' => byte - b'A' + b'a',
        _ => byte,
    };
    name.iter().map(fold).collect()
}

/// An entry that keeps the rules. `at` is its place in the directory block.
#[derive(Clone, Copy, Debug)]
pub struct Entry<'a> {
    pub at: usize,
    pub length: usize,
    pub kind: u8,
    pub anode: u16,
    pub size: u32,
    pub day: u16,
    pub minute: u16,
    pub tick: u16,
    pub protection: u8,
    pub name: &'a [u8],
    pub comment: &'a [u8],
}

impl Entry<'_> {
    /// The place of the comment's first byte in the directory block.
    pub fn comment_at(&self) -> usize {
        self.at + ENTRY_NAME + self.name.len() + 1
    }
}

/// The answer to an entry that breaks the rules.
#[derive(Clone, Copy, Debug, PartialEq, Eq)]
pub struct BrokenEntry;

/// The entries of one directory block. A broken one is the last that is handed out.
pub struct Entries<'a> {
    block: &'a [u8],
    at: usize,
    broken: bool,
}

impl<'a> Entries<'a> {
    pub fn of(block: &'a [u8]) -> Self {
        Entries { block, at: FIRST_ENTRY, broken: false }
    }

    /// Reads the entry at `at`, or nothing if the entries end there.
    fn read(&self) -> Result<Option<Entry<'a>>, BrokenEntry> {
        let at = self.at;
        let length = usize::from(*self.block.get(at).ok_or(BrokenEntry)?);
        if length == 0 {
            return Ok(None);
        }
        if length < entry_length(1, 0) || at + length > LAST_END_MARK {
            return Err(BrokenEntry);
        }
        let bytes = &self.block[at..at + length];
        let name_length = usize::from(bytes[ENTRY_NAME_LENGTH]);
        let name = bytes.get(ENTRY_NAME..ENTRY_NAME + name_length).ok_or(BrokenEntry)?;
        let comment_length = usize::from(*bytes.get(ENTRY_NAME + name_length).ok_or(BrokenEntry)?);
        let ruled = good_type(bytes[ENTRY_TYPE])
            && good_name(name)
            && comment_length <= LONGEST_COMMENT
            && length == entry_length(name_length, comment_length);
        if !ruled {
            return Err(BrokenEntry);
        }
        let comment_start = ENTRY_NAME + name_length + 1;
        Ok(Some(Entry {
            at,
            length,
            kind: bytes[ENTRY_TYPE],
            anode: word(bytes, ENTRY_ANODE),
            size: long(bytes, ENTRY_SIZE),
            day: word(bytes, ENTRY_DAY),
            minute: word(bytes, ENTRY_MINUTE),
            tick: word(bytes, ENTRY_TICK),
            protection: bytes[ENTRY_PROTECTION],
            name,
            comment: &bytes[comment_start..comment_start + comment_length],
        }))
    }
}

impl<'a> Iterator for Entries<'a> {
    type Item = Result<Entry<'a>, BrokenEntry>;

    fn next(&mut self) -> Option<Self::Item> {
        if self.broken {
            return None;
        }
        let read = self.read();
        match read {
            Ok(Some(entry)) => self.at += entry.length,
            Ok(None) => {}
            Err(BrokenEntry) => self.broken = true,
        }
        read.transpose()
    }
}

/// The place of the end mark in a directory block whose entries keep the rules.
pub fn entries_end(block: &[u8]) -> usize {
    Entries::of(block).flatten().last().map_or(FIRST_ENTRY, |entry| entry.at + entry.length)
}
