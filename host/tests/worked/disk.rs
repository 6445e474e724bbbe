//! A small disk for cases worked out by hand.

use std::marker::PhantomData;

use ovenknit_host::calls::{tables, Call, Library, Outcome, Stamp, ROOT};
use ovenknit_host::compare::compare;
use ovenknit_host::model::layout::{self, Anode, AnodeTable, BLOCK};
use ovenknit_host::model::naive;

/// A small disk with tables of the right size. Every call is run on the library and on the model, and followed by
/// both of the model's checks.
pub struct Disk<L: Library> {
    pub image: Vec<u8>,
    pub blocks: Vec<u16>,
    pub anodes: Vec<u16>,
    library: PhantomData<L>,
}

/// A format with a fixed date.
pub fn format_call(last_reserved: u16, anode_blocks: u16, name: &[u8]) -> Call {
    Call::Format {
        last_reserved,
        anode_blocks,
        name: name.to_vec(),
        stamp: Stamp::new(1, 2, 3),
        protection: 4,
    }
}

impl<L: Library> Disk<L> {
    pub fn new(image: Vec<u8>) -> Self {
        let (blocks, anodes) = tables(&image);
        Disk { image, blocks, anodes, library: PhantomData }
    }

    pub fn format(blocks: usize, last_reserved: u16, anode_blocks: u16) -> Self {
        let mut disk = Disk::new(vec![0xEE; blocks * BLOCK]);
        assert_eq!(disk.run(format_call(last_reserved, anode_blocks, b"disk")).answer, 0);
        disk
    }

    /// Runs a call on both libraries and compares all that they leave.
    pub fn compare(&mut self, call: &Call) -> Outcome {
        compare::<L>(call, &mut self.image, &mut self.blocks, &mut self.anodes)
    }

    /// Runs a call; a refused one must leave the image, and the disk must be accepted after it.
    pub fn run(&mut self, call: Call) -> Outcome {
        let before = self.image.clone();
        let outcome = self.compare(&call);
        assert!(outcome.answer == 0 || self.image == before, "refused by {}, but changed", outcome.answer);
        assert_eq!(self.check(), 0);
        outcome
    }

    /// What the library, the model and the naive check say alike.
    pub fn check(&mut self) -> u32 {
        let naive = naive::check(&self.image, &mut self.blocks.clone(), &mut self.anodes.clone());
        assert_eq!(self.compare(&Call::Check).answer, naive);
        naive
    }

    pub fn summary(&mut self) -> [u32; 4] {
        let outcome = self.run(Call::Summary);
        assert_eq!(outcome.answer, 0);
        outcome.output.counts
    }

    pub fn make(&mut self, directory: u16, kind: u8, name: &[u8]) -> u32 {
        let (name, comment, stamp) = (name.to_vec(), Vec::new(), Stamp::new(7, 8, 9));
        self.run(Call::Make { directory, kind, name, comment, stamp, protection: 10 }).answer
    }

    pub fn resize(&mut self, name: &[u8], size: u64) -> u32 {
        self.run(Call::Resize { directory: ROOT, name: name.to_vec(), size }).answer
    }

    pub fn write(&mut self, name: &[u8], offset: u64, data: &[u8]) -> u32 {
        let (name, data) = (name.to_vec(), data.to_vec());
        self.run(Call::Write { directory: ROOT, name, offset, data }).answer
    }

    pub fn read(&mut self, name: &[u8], offset: u64, length: usize) -> (u32, Vec<u8>) {
        let outcome = self.run(Call::Read { directory: ROOT, name: name.to_vec(), offset, length });
        (outcome.answer, outcome.output.bytes)
    }

    pub fn remove(&mut self, directory: u16, name: &[u8]) -> u32 {
        self.run(Call::Remove { directory, name: name.to_vec() }).answer
    }

    pub fn list(&mut self, directory: u16, place: u64) -> (u32, [u32; 11]) {
        let outcome = self.run(Call::List { directory, place });
        (outcome.answer, outcome.output.entry)
    }

    pub fn table(&self) -> AnodeTable {
        AnodeTable::read(&self.image)
    }

    /// Count, block and next of an anode.
    pub fn anode(&self, number: u16) -> (u16, u16, u16) {
        let anode = self.table()[number];
        (anode.count, anode.block, anode.next)
    }

    /// Sets the size of the root's first entry, where the root directory is in block 4.
    pub fn set_size(&mut self, size: u32) {
        layout::put_long(self.block_mut(4), layout::FIRST_ENTRY + layout::ENTRY_SIZE, size);
    }

    /// Writes count, block and next of these anodes.
    pub fn set(&mut self, anodes: &[(u16, (u16, u16, u16))]) {
        let mut table = self.table();
        for &(number, (count, block, next)) in anodes {
            table[number] = Anode::new(count, block, next);
        }
        table.write(&mut self.image);
    }

    pub fn block(&self, number: u16) -> &[u8] {
        layout::block(&self.image, number)
    }

    pub fn block_mut(&mut self, number: u16) -> &mut [u8] {
        layout::block_mut(&mut self.image, number)
    }

    /// Adds a block for every empty slot, so that the anode table cannot grow.
    pub fn fill_slots(&mut self) {
        while let Some(slot) = self.table().empty_slot() {
            let number = self.image.len() / BLOCK;
            self.image.resize((number + 1) * BLOCK, 0);
            layout::put_anode_block(&mut self.image, slot, number as u16);
        }
        (self.blocks, self.anodes) = tables(&self.image);
        assert_eq!(self.check(), 0);
    }

    /// Takes all free anodes from 6 up but these, as empty ones before anode 2.
    pub fn use_up_anodes(&mut self, but: &[u16]) {
        let table = self.table();
        let before = table.chain(1).find(|(_, anode)| anode.next == 2).map(|(number, _)| number);
        self.string_anodes(before.expect("2 is on the free list"), 2, but);
    }

    /// The same with all of them at the end of the free list.
    pub fn use_up_anodes_at_the_end(&mut self) {
        let last = self.table().chain(1).last().map(|(number, _)| number);
        self.string_anodes(last.expect("1 is on the free list"), 0, &[]);
    }

    /// Puts the free anodes but some into a chain between two of its anodes.
    fn string_anodes(&mut self, mut before: u16, after: u16, but: &[u16]) {
        let mut table = self.table();
        let free: Vec<u16> = table
            .existing()
            .filter(|&number| number >= 6 && !table[number].in_use() && !but.contains(&number))
            .collect();
        for number in free {
            table[number] = Anode::empty(after);
            table[before].next = number;
            before = number;
        }
        table.write(&mut self.image);
        assert_eq!(self.check(), 0);
    }
}
