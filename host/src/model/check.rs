//! The check, linear in blocks, anodes and entries.

use std::collections::HashSet;

use super::layout::*;

/// What the check learned about a disk that it accepts.
#[derive(Clone)]
pub struct Survey {
    /// N.
    pub blocks: usize,
    pub last_reserved: u16,
    pub table: AnodeTable,
    /// The blocks on the free list.
    pub free: u32,
    pub files: u32,
    /// Directories, the root among them.
    pub directories: u32,
    /// By head: the head of the parent for a directory (0 for the root), nothing for all other anodes.
    pub parents: Vec<Option<u16>>,
}

/// The check: answers 0 or the number of the first rule that is broken. Refusals 1 to 4 touch no table, 5 to 17
/// leave both zeroed, and a disk that is accepted has its owners and heads there.
pub fn check(image: &[u8], blocks: &mut [u16], anodes: &mut [u16]) -> u32 {
    number(survey(image, blocks, anodes))
}

/// The number that a call answers for a result.
pub(super) fn number<T>(result: Result<T, u32>) -> u32 {
    result.err().unwrap_or(0)
}

/// The check with all that it learned, or its refusal.
pub fn survey(image: &[u8], blocks: &mut [u16], anodes: &mut [u16]) -> Result<Survey, u32> {
    let size = disk_size(image).ok_or(1u32)?;
    if blocks.len() < size || anodes.len() < ANODES {
        return Err(2);
    }
    check_root(image, size)?;
    let owners = &mut blocks[..size];
    let heads = &mut anodes[..ANODES];
    owners.fill(0);
    heads.fill(0);
    let found = examine(image, owners, heads);
    if found.is_err() {
        owners.fill(0);
        heads.fill(0);
    }
    found
}

/// Numbers 5 to 17, on tables that are zeroed.
fn examine(image: &[u8], owners: &mut [u16], heads: &mut [u16]) -> Result<Survey, u32> {
    let size = owners.len();
    let last_reserved = last_reserved(image);
    check_slots(image, &slots(image), size)?;
    let table = AnodeTable::read(image);
    check_special(&table)?;
    let in_use: Vec<u16> = table.existing().filter(|&number| number != 0 && table[number].in_use()).collect();
    check_fields(&table, &in_use, size)?;
    let followers = check_predecessors(&table, &in_use)?;
    let lengths = check_chains(&table, &in_use, &followers, heads)?;
    check_free_list(&table, last_reserved)?;
    check_owners(&table, &in_use, heads, owners)?;
    let walk = Walk::run(image, &table, &followers, &lengths)?;
    check_named(&in_use, &followers, &walk.named)?;
    Ok(Survey {
        blocks: size,
        last_reserved,
        free: lengths[usize::from(FREE_LIST)],
        files: walk.files,
        directories: walk.queue.len() as u32,
        parents: walk.parents,
        table,
    })
}

/// 3 and 4: the root block.
fn check_root(image: &[u8], size: usize) -> Result<(), u32> {
    let root = root(image);
    if root[..4] != DISK_TYPE {
        return Err(3);
    }
    let last = usize::from(last_reserved(image));
    let name_length = usize::from(root[ROOT_NAME]);
    let good = word(root, ROOT_FIRST_RESERVED) == 0
        && (2..size).contains(&last)
        && (1..=LONGEST_DISK_NAME).contains(&name_length);
    good.then_some(()).ok_or(4)
}

/// 5: the anode blocks.
fn check_slots(image: &[u8], slots: &[u16; SLOTS], size: usize) -> Result<(), u32> {
    if slots[0] == 0 {
        return Err(5);
    }
    for (slot, number) in used_slots(slots) {
        if !(3..size).contains(&usize::from(number)) {
            return Err(5);
        }
        let bytes = block(image, number);
        if bytes[..2] != ANODE_MARK || usize::from(word(bytes, ANODE_SEQUENCE)) != slot {
            return Err(5);
        }
    }
    Ok(())
}

/// 6: the anodes with a fixed content.
fn check_special(table: &AnodeTable) -> Result<(), u32> {
    let free_list = table[FREE_LIST];
    let good = table[0] == Anode::empty(0)
        && free_list.count == 0
        && free_list.block == 65_535
        && !table[RESERVED].is_free()
        && !table[ROOT_DIRECTORY].is_free();
    good.then_some(()).ok_or(6)
}

/// 7: no anode is half cleared, every extent is on the disk and every next is 0 or in use.
fn check_fields(table: &AnodeTable, in_use: &[u16], size: usize) -> Result<(), u32> {
    let good = in_use.iter().map(|&number| table[number]).all(|anode| {
        !anode.is_half_cleared()
            && (anode.count == 0 || anode.end() <= size)
            && (anode.next == 0 || table.in_use(anode.next))
    });
    good.then_some(()).ok_or(7)
}

/// 8, first part: at most one predecessor, and none for 1, 3, 4 and 5. Answers which anodes have one.
fn check_predecessors(table: &AnodeTable, in_use: &[u16]) -> Result<Vec<bool>, u32> {
    let mut followers = vec![false; ANODES];
    for next in in_use.iter().map(|&number| table[number].next).filter(|&next| next != 0) {
        let follower = &mut followers[usize::from(next)];
        if *follower {
            return Err(8);
        }
        *follower = true;
    }
    let always_heads = [FREE_LIST, TO_BE_FREED, BAD_BLOCKS, ROOT_DIRECTORY];
    match always_heads.iter().any(|&number| followers[usize::from(number)]) {
        true => Err(8),
        false => Ok(followers),
    }
}

/// 8, second part: every chain ends. With one predecessor at most, an anode that no head leads to is on a ring.
/// Fills the heads and answers the number of blocks of each chain, by head.
fn check_chains(
    table: &AnodeTable,
    in_use: &[u16],
    followers: &[bool],
    heads: &mut [u16],
) -> Result<Vec<u32>, u32> {
    let mut lengths = vec![0u32; ANODES];
    let mut met = 0;
    for &head in in_use.iter().filter(|&&number| !followers[usize::from(number)]) {
        let mut number = head;
        while number != 0 {
            let anode = table[number];
            heads[usize::from(number)] = head;
            lengths[usize::from(head)] += u32::from(anode.count);
            met += 1;
            number = anode.next;
        }
    }
    (met == in_use.len()).then_some(lengths).ok_or(8)
}

/// 9: anode 2 is on the free list, blocks above last reserved before it, the others from it on.
fn check_free_list(table: &AnodeTable, last_reserved: u16) -> Result<(), u32> {
    let mut lower = false;
    let mut number = table[FREE_LIST].next;
    while number != 0 {
        lower |= number == RESERVED;
        let anode = table[number];
        let right = match lower {
            true => anode.end() <= usize::from(last_reserved) + 1,
            false => anode.block > last_reserved,
        };
        if anode.count != 0 && !right {
            return Err(9);
        }
        number = anode.next;
    }
    lower.then_some(()).ok_or(9)
}

/// 10 and 11: every block has one owner. Fills the owners.
fn check_owners(table: &AnodeTable, in_use: &[u16], heads: &[u16], owners: &mut [u16]) -> Result<(), u32> {
    owners[..3].fill(OWNER_START);
    for (_, number) in used_slots(table.slots()) {
        owners[usize::from(number)] = OWNER_ANODES;
    }
    for &number in in_use {
        let anode = table[number];
        if anode.count == 0 {
            continue;
        }
        let extent = &mut owners[usize::from(anode.block)..anode.end()];
        // Looks at all of them in any case, which is faster than a loop that may end early.
        if extent.iter().fold(0, |seen, &owner| seen | owner) != 0 {
            return Err(10);
        }
        extent.fill(heads[usize::from(number)]);
    }
    match owners.contains(&0) {
        true => Err(11),
        false => Ok(()),
    }
}

/// The walk over the directories, breadth first from the root, that gives 12 to 15 and 17.
struct Walk<'a> {
    table: &'a AnodeTable,
    followers: &'a [bool],
    lengths: &'a [u32],
    named: Vec<bool>,
    parents: Vec<Option<u16>>,
    queue: Vec<u16>,
    files: u32,
}

impl<'a> Walk<'a> {
    fn run(
        image: &[u8],
        table: &'a AnodeTable,
        followers: &'a [bool],
        lengths: &'a [u32],
    ) -> Result<Self, u32> {
        let mut walk = Walk {
            table,
            followers,
            lengths,
            named: vec![false; ANODES],
            parents: vec![None; ANODES],
            queue: vec![ROOT_DIRECTORY],
            files: 0,
        };
        walk.parents[usize::from(ROOT_DIRECTORY)] = Some(0);
        let mut turn = 0;
        while let Some(&directory) = walk.queue.get(turn) {
            walk.visit(image, directory)?;
            turn += 1;
        }
        Ok(walk)
    }

    fn visit(&mut self, image: &[u8], directory: u16) -> Result<(), u32> {
        let mut names = HashSet::new();
        for (_, anode) in self.table.chain(directory) {
            if anode.count != 1 {
                return Err(12);
            }
            let bytes = block(image, anode.block);
            let parent = Some(word(bytes, DIRECTORY_PARENT));
            let headed = bytes[..2] == DIRECTORY_MARK
                && word(bytes, DIRECTORY_OWNER) == directory
                && (directory == ROOT_DIRECTORY || parent == self.parents[usize::from(directory)]);
            if !headed {
                return Err(12);
            }
            for entry in Entries::of(bytes) {
                let entry = entry.map_err(|BrokenEntry| 12u32)?;
                if !names.insert(folded(entry.name)) {
                    return Err(17);
                }
                self.meet(&entry, directory)?;
            }
        }
        Ok(())
    }

    fn meet(&mut self, entry: &Entry, directory: u16) -> Result<(), u32> {
        let head = usize::from(entry.anode);
        if entry.anode < FIRST_USER || !self.table.in_use(entry.anode) || self.followers[head] {
            return Err(13);
        }
        if self.named[head] {
            return Err(14);
        }
        self.named[head] = true;
        if entry.kind == DIRECTORY {
            self.parents[head] = Some(directory);
            self.queue.push(entry.anode);
            return Ok(());
        }
        self.files += 1;
        match self.lengths[head] == entry.size.div_ceil(BLOCK as u32) {
            true => Ok(()),
            false => Err(15),
        }
    }
}

/// 16: every chain from 6 up is named.
fn check_named(in_use: &[u16], followers: &[bool], named: &[bool]) -> Result<(), u32> {
    let lost = |number: u16| {
        let place = usize::from(number);
        number >= FIRST_USER && !followers[place] && !named[place]
    };
    match in_use.iter().any(|&number| lost(number)) {
        true => Err(16),
        false => Ok(()),
    }
}
