//! Taking a block, and growing the anode table (02, No. 6). The steps of a change work on a draft of the anode table, which
//! is written to the image only when all of them are done; a refused change throws the draft away.

use super::layout::*;

/// What a block is taken for.
#[derive(Clone, Copy, Debug, PartialEq, Eq)]
pub enum Purpose {
    Data,
    Directory,
}

/// The two sides of the free list.
#[derive(Clone, Copy, Debug, PartialEq, Eq)]
enum Side {
    /// Above last reserved: the anodes after 1 and before 2.
    Upper,
    /// Up to last reserved: anode 2 and those after it.
    Lower,
}

/// A draft of the anode table.
pub struct Space {
    pub table: AnodeTable,
    pub(super) last_reserved: u16,
    grows: bool,
}

impl Space {
    pub fn new(table: AnodeTable, last_reserved: u16) -> Self {
        Space { table, last_reserved, grows: true }
    }

    /// The same, with a table that never grows.
    pub fn without_growth(table: AnodeTable, last_reserved: u16) -> Self {
        Space { table, last_reserved, grows: false }
    }

    /// The lowest free anode from 6 up.
    pub(super) fn free_anode(&self) -> Option<u16> {
        let free = |&number: &u16| number >= FIRST_USER && !self.table[number].in_use();
        self.table.existing().find(free)
    }

    /// The lowest empty slot gets a block, taken as a directory's is, which no anode owns. 28 if no slot is empty or no
    /// block is free, or if the table never grows.
    pub(super) fn grow(&mut self) -> Result<(), u32> {
        let slot = self.table.empty_slot().filter(|_| self.grows).ok_or(28u32)?;
        let block = self.free_block(Purpose::Directory).ok_or(28u32)?;
        self.table.fill_slot(slot, block);
        Ok(())
    }

    /// The lowest free anode from 6 up, for which the table grows if need be, or 28.
    pub fn needed_anode(&mut self) -> Result<u16, u32> {
        if self.free_anode().is_none() {
            self.grow()?;
        }
        self.free_anode().ok_or(28)
    }

    /// Takes a block for the chain of `head`: 27 if none is free, 28 if an anode is needed, none is free and the table
    /// cannot grow.
    pub fn take(&mut self, head: u16, purpose: Purpose) -> Result<u16, u32> {
        let block = self.free_block(purpose).ok_or(27u32)?;
        self.append(head, block, purpose)?;
        Ok(block)
    }

    /// Takes the first block of the first extent with blocks off the free list, on the side where its purpose looks first,
    /// else on the other.
    pub(super) fn free_block(&mut self, purpose: Purpose) -> Option<u16> {
        let (first, second) = match purpose {
            Purpose::Data => (Side::Upper, Side::Lower),
            Purpose::Directory => (Side::Lower, Side::Upper),
        };
        let (before, extent) = self.first_extent(first).or_else(|| self.first_extent(second))?;
        Some(self.cut_first(before, extent))
    }

    /// The first extent with blocks on a side of the free list, with its predecessor.
    fn first_extent(&self, side: Side) -> Option<(u16, u16)> {
        let mut here = Side::Upper;
        let mut before = FREE_LIST;
        for (number, anode) in self.table.chain(FREE_LIST).skip(1) {
            if number == RESERVED {
                here = Side::Lower;
            }
            if here == side && anode.count > 0 {
                return Some((before, number));
            }
            before = number;
        }
        None
    }

    /// Takes the first block off a free extent. An emptied anode is unlinked and zeroed, but anode 2 stays.
    fn cut_first(&mut self, before: u16, extent: u16) -> u16 {
        let anode = self.table[extent];
        if anode.count > 1 {
            self.table[extent] = Anode::new(anode.count - 1, anode.block + 1, anode.next);
        } else if extent == RESERVED {
            self.table[extent] = Anode::empty(anode.next);
        } else {
            self.unlink(before, extent);
        }
        anode.block
    }

    fn unlink(&mut self, before: u16, number: u16) {
        self.table[before].next = self.table[number].next;
        self.table[number] = Anode::ZERO;
    }

    /// Adds a block at the end of a chain. Only data makes an extent grow.
    fn append(&mut self, head: u16, block: u16, purpose: Purpose) -> Result<(), u32> {
        let last = self.last_of(head);
        let anode = self.table[last];
        if anode.count == 0 {
            self.table[last] = Anode::new(1, block, 0);
        } else if purpose == Purpose::Data && anode.end() == usize::from(block) {
            self.table[last].count += 1;
        } else {
            // Growth changes the free list alone, so that the last anode of this chain is still the same.
            let fresh = self.needed_anode()?;
            self.table[fresh] = Anode::new(1, block, 0);
            self.table[last].next = fresh;
        }
        Ok(())
    }

    fn last_of(&self, head: u16) -> u16 {
        self.table.chain(head).last().map_or(head, |(number, _)| number)
    }
}
