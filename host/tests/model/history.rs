//! A history of calls on the model against a plain tree in memory, and against what is worked out on lists.

use ovenknit_host::bitmap::{self, BITMAP_BLOCK};
use ovenknit_host::calls::{run, tables, Call, Outcome, Output, TOTALS, UNCOUNTED, UNREAD};
use ovenknit_host::compare::{junk_tables, totals, Histogram};
use ovenknit_host::histories::{every_change, head_of, random_call, Trend};
use ovenknit_host::met::{worked_out, GrowthMet, Met, NamesMet};
use ovenknit_host::model::layout::{self, Anode, AnodeTable, BLOCK, ROOT_BLOCK};
use ovenknit_host::model::naive::lists;
use ovenknit_host::model::{self, Model};
use ovenknit_host::rng::Rng;
use ovenknit_host::shapes::Shaped;
use ovenknit_host::tree::{Node, Tree};

use crate::checks::compare_with_junk;

/// A disk under a history of calls, with the tree that it must hold.
pub struct History {
    image: Vec<u8>,
    tree: Tree,
    rng: Rng,
    pub answers: Histogram,
    pub met: Met,
    pub names: NamesMet,
    pub growth: GrowthMet,
}

impl History {
    pub fn new(disk: Shaped, seed: u64) -> Self {
        let Shaped { image, tree } = disk;
        let (answers, met) = (Histogram::default(), Met::default());
        let (names, growth) = (NamesMet::default(), GrowthMet::default());
        History { image, tree, rng: Rng::new(!seed), answers, met, names, growth }
    }

    fn blocks(&self) -> usize {
        self.image.len() / BLOCK
    }

    fn free_blocks(&self) -> usize {
        totals(&self.image, &self.tree).free
    }

    /// Makes random calls.
    pub fn go_on(&mut self, calls: usize) {
        let mut trend = Trend::random(&mut self.rng);
        let mut free = self.free_blocks();
        for _ in 0..calls {
            trend = trend.next(&mut self.rng);
            let call = random_call(&self.image, &self.tree, trend, free, &mut self.rng);
            self.noted_call(&call);
            free = self.free_blocks();
        }
    }

    /// Makes every change of every entry, each from the disk as it is now.
    pub fn make_each(&mut self) {
        let (image, tree) = (self.image.clone(), self.tree.clone());
        for call in every_change(&tree) {
            self.noted_call(&call);
            self.image.clone_from(&image);
            self.tree.clone_from(&tree);
        }
    }

    /// Runs a call, and notes what it meets.
    fn noted_call(&mut self, call: &Call) {
        self.met.note(&self.image, &self.tree, call);
        self.names.note(&self.tree, call);
        self.growth.note(&self.image, &self.tree, call);
        self.call(call);
    }

    /// Runs a call and compares all that it leaves with what it must leave.
    fn call(&mut self, call: &Call) {
        let before = self.image.clone();
        let (mut blocks, mut anodes) = junk_tables(self.blocks(), false, &mut self.rng);
        if self.rng.percent(1) {
            self.call_with_short_tables(call);
        }
        let lent = (blocks.clone(), anodes.clone());
        let outcome = run::<Model>(call, &mut self.image, &mut blocks, &mut anodes);
        let answer = outcome.answer;
        self.answers.add(answer, call.label());
        self.compare_answer(call, answer, &before);
        if answer != 0 || !call.changes() {
            assert_eq!(self.image, before, "the image changed by {call:?}, answered {answer}");
        }
        if let Call::Format { .. } = call {
            assert_eq!((blocks, anodes), lent, "format is lent no tables");
        } else if answer == 31 {
            assert_eq!((blocks, anodes), lent, "31 comes before any check");
        } else {
            self.compare_tables(&lent, &blocks, &anodes);
        }
        self.compare_output(call, &outcome);
        if answer == 0 && call.changes() {
            self.compare_change(call, &before);
        }
        if self.rng.percent(2) {
            assert_eq!(compare_with_junk(&self.image, &mut self.rng), 0);
        }
    }

    /// With a table too short every call but format answers 2, unless 31 came before it, and touches nothing.
    fn call_with_short_tables(&mut self, call: &Call) {
        if let Call::Format { .. } = call {
            return;
        }
        let (mut blocks, mut anodes) = junk_tables(self.blocks(), true, &mut self.rng);
        let lent = (self.image.clone(), blocks.clone(), anodes.clone());
        let outcome = run::<Model>(call, &mut self.image, &mut blocks, &mut anodes);
        let full = self.tree.refusal(call, self.blocks()) == Some(31);
        assert_eq!(outcome.answer, if full { 31 } else { 2 });
        self.compare_refused_output(call, &outcome);
        assert_eq!((&self.image, blocks, anodes), (&lent.0, lent.1, lent.2));
    }

    /// The number is the tree's; of a call that only space can stop, the one that is worked out on lists.
    fn compare_answer(&self, call: &Call, answer: u32, before: &[u8]) {
        let expected = match (self.tree.refusal(call, self.blocks()), call) {
            (Some(number), _) => number,
            (None, Call::Bitmap { length }) => self.bitmap_answer(*length),
            (None, Call::BitmapDiffers { bitmap }) => self.bitmap_answer(bitmap.len()),
            (None, _) => worked_out(before, &self.tree, call).map_or(0, |outcome| outcome.answer),
        };
        assert_eq!(answer, expected, "{call:?}");
        if answer == 27 || answer == 28 {
            self.compare_space(call, answer, before);
        }
    }

    /// A call that space stopped, from counts of blocks and anodes alone: 27 only where it takes more blocks than are free,
    /// but for one that growth may have taken; 28 only where no slot is empty, or where it takes all blocks that are free.
    fn compare_space(&self, call: &Call, answer: u32, before: &[u8]) {
        let table = AnodeTable::read(before);
        let anodes = table.existing().filter(|&number| number >= 6 && !table[number].in_use()).count();
        let free = model::totals(before).expect("the disk was accepted").free as u64;
        let taken = match call {
            Call::Make { .. } => 2,
            Call::Resize { directory, name, size } => {
                let old = self.tree.size(*directory, name).div_ceil(BLOCK) as u64;
                size.div_ceil(BLOCK as u64).saturating_sub(old)
            }
            _ => 0,
        };
        match answer {
            27 => assert!(taken + 1 > free, "27 with {free} blocks free for {call:?}"),
            _ => {
                assert!(anodes <= taken as usize + 1, "28 with {anodes} anodes free for {call:?}");
                assert!(
                    table.empty_slot().is_none() || free <= taken,
                    "28 with a slot for {free} blocks: {call:?}"
                );
            }
        }
    }

    /// 40 unless the bitmap has exactly this length.
    fn bitmap_answer(&self, length: usize) -> u32 {
        let needed = bitmap::length(self.blocks(), layout::last_reserved(&self.image));
        if length == needed {
            0
        } else {
            40
        }
    }

    /// The tables are those that the check leaves for the image as it is now.
    fn compare_tables(&self, lent: &(Vec<u16>, Vec<u16>), blocks: &[u16], anodes: &[u16]) {
        let (mut checked_blocks, mut checked_anodes) = lent.clone();
        assert_eq!(model::check(&self.image, &mut checked_blocks, &mut checked_anodes), 0);
        assert_eq!(checked_blocks, blocks);
        assert_eq!(checked_anodes, anodes);
    }

    fn compare_output(&self, call: &Call, outcome: &Outcome) {
        if outcome.answer != 0 {
            return self.compare_refused_output(call, outcome);
        }
        let output = &outcome.output;
        match call {
            Call::Read { directory, name, offset, .. } => {
                assert_eq!(output.bytes, self.tree.content(*directory, name, *offset, output.bytes.len()));
            }
            Call::List { directory, place } => {
                let node = self.tree.listed(*directory, *place).expect("the place is there");
                self.compare_entry(node, &output.entry);
            }
            Call::Find { directory, name } => {
                let node = self.tree.find(*directory, name).expect("the name is there");
                self.compare_entry(node, &output.entry);
            }
            Call::Label => self.compare_label(&output.label),
            Call::Bitmap { .. } => {
                // As many bits as free blocks behind last reserved.
                let (mut owners, mut heads) = tables(&self.image);
                assert_eq!(model::check(&self.image, &mut owners, &mut heads), 0);
                let behind = &owners[usize::from(layout::last_reserved(&self.image)) + 1..];
                let free = behind.iter().filter(|&&owner| owner == 1).count();
                let bits = output.bytes.chunks(BITMAP_BLOCK).flat_map(|block| &block[12..]);
                assert_eq!(bits.map(|byte| byte.count_ones() as usize).sum::<usize>(), free);
            }
            Call::Report { totals } => self.compare_report(totals, output),
            Call::Summary => {
                let (files, directories) = self.tree.counts();
                let counts = [self.blocks(), self.free_blocks(), files, directories];
                assert_eq!(output.counts, counts.map(|count| count as u32));
            }
            _ => {}
        }
    }

    fn compare_refused_output(&self, call: &Call, outcome: &Outcome) {
        assert!(outcome.output.bytes.iter().all(|&byte| byte == UNREAD));
        match call {
            Call::List { .. } | Call::Find { .. } => assert_eq!(outcome.output.entry, [0; 11]),
            Call::Label => assert_eq!(outcome.output.label, [0; 7]),
            Call::Summary => assert_eq!(outcome.output.counts, [0; 4]),
            Call::BitmapDiffers { .. } => assert_eq!(outcome.output.difference, [0; 2]),
            Call::Report { totals } => compare_refused_report(totals, outcome),
            _ => {}
        }
    }

    /// The label is what stands in the root block.
    fn compare_label(&self, fields: &[u32; 7]) {
        let root = &self.image[2 * BLOCK..][..BLOCK];
        let number = |at: usize| u32::from(root[at]) * 256 + u32::from(root[at + 1]);
        assert_eq!(fields[..5], [54, 12, 14, 16, 18].map(number));
        assert_eq!(fields[5..], [1_045, u32::from(root[20])]);
    }

    /// Files, directories and bytes are the tree's, blocks free those of the other count, and all are added to the totals.
    fn compare_report(&self, before: &[u64; TOTALS], output: &Output) {
        let (files, directories) = self.tree.counts();
        let [free, disk_files, disk_directories, longest, split] = output.disk;
        let expected = [self.free_blocks(), files, directories].map(|count| count as u64);
        assert_eq!([free, disk_files, disk_directories], expected);
        assert!(longest <= free && (longest > 0) == (free > 0) && split <= disk_files);
        let added: Vec<u64> =
            output.totals.iter().zip(before).map(|(after, before)| after - before).collect();
        assert_eq!((added[0], &added[1..18], &added[18..23]), (1, &[0; 17][..], &output.disk[..]));
        assert_eq!(added[23], self.tree.bytes() as u64);
    }

    fn compare_entry(&self, node: &Node, fields: &[u32; 11]) {
        let numbers = [
            u32::from(node.entry.kind.type_byte()),
            u32::from(node.entry.anode),
            node.entry.size,
            u32::from(node.entry.stamp.day),
            u32::from(node.entry.stamp.minute),
            u32::from(node.entry.stamp.tick),
            u32::from(node.entry.protection),
        ];
        assert_eq!(fields[..7], numbers);
        let part = |at: u32, length: u32| &self.image[at as usize..(at + length) as usize];
        assert_eq!(part(fields[7], fields[8]), node.entry.name);
        assert_eq!(part(fields[9], fields[10]), node.entry.comment);
        assert_eq!(fields[9], fields[7] + fields[8] + 1);
    }

    /// After a done change: only what the change is about has changed, and the tree follows.
    fn compare_change(&mut self, call: &Call, before: &[u8]) {
        let mut made = 0;
        if let Call::Make { directory, name, .. } = call {
            made = head_of(&self.image, *directory, name);
            let outcome = worked_out(before, &self.tree, call);
            assert_eq!(outcome.and_then(|outcome| outcome.made), Some(made), "the head of {call:?}");
        }
        if !matches!(call, Call::Format { .. }) {
            self.compare_untouched(call, before, made);
        }
        if let Some(outcome) = worked_out(before, &self.tree, call) {
            self.compare_anodes(&outcome, before);
        }
        self.tree.apply(call, made);
    }

    /// The slots, the free list, the chains and the free anodes are as worked out on lists, and all other anodes as they
    /// were.
    fn compare_anodes(&self, outcome: &lists::Outcome, before: &[u8]) {
        let (old, new) = (AnodeTable::read(before), AnodeTable::read(&self.image));
        assert!(new.slots().iter().map(|&number| usize::from(number)).eq(outcome.slots.iter().copied()));
        for number in new.existing() {
            let given = outcome.anodes.get(&number);
            let expected = given.map_or(old[number], |&(count, block, next)| Anode::new(count, block, next));
            assert_eq!(new[number], expected, "anode {number} is not as worked out on lists");
        }
    }

    /// Bytes that the change is not about are as they were: other blocks, what no rule examines in anode
    /// blocks, and the anodes of all chains but the free list and those that the change is about.
    fn compare_untouched(&self, call: &Call, before: &[u8], made: u16) {
        let (mut owners, mut heads) = tables(&self.image);
        assert_eq!(model::check(&self.image, &mut owners, &mut heads), 0);
        let (mut old_owners, mut old_heads) = tables(before);
        assert_eq!(model::check(before, &mut old_owners, &mut old_heads), 0);
        let head =
            |directory: u16, name: &[u8]| self.tree.find(directory, name).map_or(0, |node| node.entry.anode);
        let touched = match call {
            Call::Make { directory, .. } => [*directory, made],
            Call::Resize { directory, name, .. } => [*directory, head(*directory, name)],
            Call::Write { directory, name, .. } => [head(*directory, name); 2],
            Call::Remove { directory, name } => [*directory, head(*directory, name)],
            _ => [0; 2],
        };
        // A slot that grew has another number, and its block the bytes of a new one.
        let mut grown = before.to_vec();
        let slots = layout::slots(&self.image);
        for (slot, &number) in slots.iter().enumerate().filter(|(slot, _)| layout::slots(before)[*slot] == 0)
        {
            layout::put_word(layout::block_mut(&mut grown, ROOT_BLOCK), 96 + 2 * slot, number);
            if number != 0 {
                let header = [&b"AB"[..], &[0; 8], &[0, slot as u8], &[0; 4]].concat();
                layout::block_mut(&mut grown, number).fill(0);
                layout::block_mut(&mut grown, number)[..16].copy_from_slice(&header);
            }
        }
        for (number, &owner) in owners.iter().enumerate() {
            let range = number * BLOCK..(number + 1) * BLOCK;
            let (old, new) = (&grown[range.clone()], &self.image[range]);
            if owner == layout::OWNER_ANODES {
                assert_eq!((&old[..16], &old[508..]), (&new[..16], &new[508..]), "anode block {number}");
            } else if !touched.contains(&owner) {
                assert_eq!(old, new, "block {number} changed by {call:?}");
            }
        }
        let old = AnodeTable::read(before);
        let new = AnodeTable::read(&self.image);
        let is_other = |head: u16| head > 1 && !touched.contains(&head);
        for number in old.existing() {
            let place = usize::from(number);
            if is_other(old_heads[place]) || is_other(heads[place]) {
                assert_eq!(old[number], new[number], "anode {number} changed by {call:?}");
            }
        }
    }

    /// Lists and reads all that the tree has.
    pub fn read_everything(&mut self) {
        let tree = self.tree.clone();
        self.call(&Call::Summary);
        for (&directory, entries) in &tree.directories {
            for place in 0..=entries.nodes().count() as u64 {
                self.call(&Call::List { directory, place });
            }
            for node in entries.nodes() {
                let length = node.content.len();
                self.call(&Call::Read { directory, name: node.entry.name.clone(), offset: 0, length });
            }
        }
    }
}

/// 31 leaves all that a report writes; a refusal of the check is counted, and the disk's numbers are zeros.
fn compare_refused_report(before: &[u64; TOTALS], outcome: &Outcome) {
    let mut totals = *before;
    if outcome.answer != 31 {
        totals[outcome.answer as usize] += 1;
    }
    let disk = if outcome.answer == 31 { [UNCOUNTED; 5] } else { [0; 5] };
    assert_eq!((outcome.output.totals, outcome.output.disk), (totals, disk));
}
