//! Giving back whole runs (02, No. 3), for which the anode table may grow (No. 6). It works on the same draft as taking.

use super::layout::*;
use super::space::Space;

impl Space {
    /// Gives back the last blocks of a chain that stays with its file, extents last first. The head and all empty anodes
    /// stay in the chain. 28 if a run needs an anode, none is free and the table cannot grow.
    pub fn shorten(&mut self, head: u16, blocks: usize) -> Result<(), u32> {
        let chain = self.numbers(head);
        let mut giver = Giver::new(self);
        let mut left = blocks;
        for (place, &number) in chain.iter().enumerate().rev() {
            let held = usize::from(giver.space.table[number].count);
            let given = held.min(left);
            if given == 0 {
                continue;
            }
            if given == held && number != head {
                giver.unlink(chain[place - 1], number);
                giver.give_whole(number)?;
            } else {
                giver.give_end(number, given as u16)?;
            }
            left -= given;
        }
        Ok(())
    }

    /// Gives back all blocks of a chain that is removed, extents last first, the head's with its anode too. Then the empty
    /// anodes of the chain, which count as in use until there, are zeroed. 28 as above.
    pub fn dissolve(&mut self, head: u16) -> Result<(), u32> {
        let chain = self.numbers(head);
        let (empty, extents): (Vec<u16>, Vec<u16>) =
            chain.into_iter().partition(|&number| self.table[number].count == 0);
        let mut giver = Giver::new(self);
        for &number in extents.iter().rev() {
            giver.give_whole(number)?;
        }
        for number in empty {
            self.table[number] = Anode::ZERO;
        }
        Ok(())
    }

    /// The numbers of the anodes of a chain.
    fn numbers(&self, head: u16) -> Vec<u16> {
        self.table.chain(head).map(|(number, _)| number).collect()
    }
}

/// Blocks on one side of last reserved that go back together.
#[derive(Clone, Copy, Debug)]
struct Run {
    start: u16,
    count: u16,
}

impl Run {
    /// The block after its last one, as a whole number.
    fn end(self) -> usize {
        usize::from(self.start) + usize::from(self.count)
    }
}

/// Puts runs at the end of their side of the free list.
struct Giver<'a> {
    space: &'a mut Space,
    /// The last anode above last reserved, anode 2's predecessor: anode 1 if nothing lies between.
    upper_last: u16,
    /// The last anode up to last reserved: the last of the whole list.
    lower_last: u16,
}

impl<'a> Giver<'a> {
    fn new(space: &'a mut Space) -> Self {
        let mut giver = Giver { space, upper_last: FREE_LIST, lower_last: RESERVED };
        giver.look_for_ends();
        giver
    }

    /// Looks for the last anodes of both sides.
    fn look_for_ends(&mut self) {
        for (number, anode) in self.space.table.chain(FREE_LIST) {
            if anode.next == RESERVED {
                self.upper_last = number;
            }
            self.lower_last = number;
        }
    }

    /// Takes an anode that keeps its blocks out of its chain.
    fn unlink(&mut self, before: u16, number: u16) {
        self.space.table[before].next = self.space.table[number].next;
    }

    /// Gives back a whole extent. Its anode serves the run, of two runs the lower, and is zeroed if that joins or fills
    /// another; while an upper part looks for an anode it is still in use.
    fn give_whole(&mut self, number: u16) -> Result<(), u32> {
        let Anode { count, block: start, .. } = self.space.table[number];
        let (upper, run) = self.split(Run { start, count });
        if let Some(upper) = upper {
            self.give_run(upper)?;
        }
        self.space.table[number] = Anode::ZERO;
        if !self.join_or_fill(run) {
            self.append(number, run);
        }
        Ok(())
    }

    /// Gives back the last blocks of an anode that stays: a cut piece, or all that the head has.
    fn give_end(&mut self, number: u16, count: u16) -> Result<(), u32> {
        let anode = self.space.table[number];
        let kept = anode.count - count;
        self.space.table[number] = match kept {
            0 => Anode::empty(anode.next),
            _ => Anode { count: kept, ..anode },
        };
        let (upper, run) = self.split(Run { start: anode.block + kept, count });
        if let Some(upper) = upper {
            self.give_run(upper)?;
        }
        self.give_run(run)
    }

    /// The upper part of a run that crosses last reserved, and the lower part; of any other run nothing, and itself.
    fn split(&self, run: Run) -> (Option<Run>, Run) {
        let above = self.space.last_reserved + 1;
        if run.start >= above || run.end() <= usize::from(above) {
            return (None, run);
        }
        let below = above - run.start;
        let upper = Run { start: above, count: run.count - below };
        (Some(upper), Run { count: below, ..run })
    }

    /// Gives back a run without an anode of its own: where it neither joins nor fills, the lowest free one serves it. If none
    /// is free the table grows, which the run in hand cannot serve, and the place is looked for afresh.
    fn give_run(&mut self, run: Run) -> Result<(), u32> {
        while !self.join_or_fill(run) {
            if let Some(fresh) = self.space.free_anode() {
                self.append(fresh, run);
                break;
            }
            self.space.grow()?;
            self.look_for_ends();
        }
        Ok(())
    }

    /// The last anode of the run's side of the free list.
    fn last(&mut self, run: Run) -> &mut u16 {
        match run.start > self.space.last_reserved {
            true => &mut self.upper_last,
            false => &mut self.lower_last,
        }
    }

    /// Joins a run to the last anode of its side if they touch, or fills that one if it is empty, but never anode 1. Answers
    /// whether it did.
    fn join_or_fill(&mut self, run: Run) -> bool {
        let last = *self.last(run);
        let anode = &mut self.space.table[last];
        let Run { start, count } = run;
        if last == FREE_LIST {
            return false;
        }
        if anode.count == 0 {
            *anode = Anode { count, block: start, ..*anode };
        } else if anode.end() == usize::from(start) {
            anode.count += count;
        } else if run.end() == usize::from(anode.block) {
            *anode = Anode { count: anode.count + count, block: start, ..*anode };
        } else {
            return false;
        }
        true
    }

    /// Puts a run in an anode of no chain, and that behind the last one of its side.
    fn append(&mut self, number: u16, run: Run) {
        let last = std::mem::replace(self.last(run), number);
        let table = &mut self.space.table;
        table[number] = Anode::new(run.count, run.start, table[last].next);
        table[last].next = number;
    }
}
