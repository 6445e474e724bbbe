//! Taking by the words of 01, with growth (02, No. 6), on plain lists: what a resize to a larger size and a make come to.

use super::lists::{Extent, Lists, Need, Outcome, ENTRY, PARENT};

/// Takes so many blocks for a file, on an accepted disk.
pub fn enlarge(image: &[u8], head: u16, blocks: u64) -> Outcome {
    let mut lists = Lists::read(image, head, 0);
    let result = (0..blocks).try_for_each(|_| lists.take(ENTRY, true));
    lists.outcome(result)
}

/// Makes a file, or a directory with a block of its own, in a directory that needs a block more or does not.
pub fn make(image: &[u8], parent: u16, is_directory: bool, parent_needs_block: bool) -> Outcome {
    let mut lists = Lists::read(image, 0, parent);
    let result = lists.make(is_directory, parent_needs_block);
    let made = result.ok().and_then(|()| lists.chains[ENTRY].first()).map(|head| head.anode as u16);
    Outcome { made, ..lists.outcome(result) }
}

impl Lists {
    fn make(&mut self, is_directory: bool, parent_needs_block: bool) -> Result<(), u32> {
        let head = Extent { anode: self.anode(Need::Head)?, start: 65_535, count: 0 };
        self.chains[ENTRY].push(head);
        if is_directory {
            self.take(ENTRY, false)?;
        }
        if parent_needs_block {
            self.take(PARENT, false)?;
        }
        Ok(())
    }

    /// Takes one block at the end of a chain: for data from the upper side first, else from the lower.
    fn take(&mut self, chain: usize, data: bool) -> Result<(), u32> {
        let (block, _) = self.first_block(!data).ok_or(27u32)?;
        let last = self.chains[chain].last_mut().expect("a chain has its head");
        if last.count == 0 {
            (last.start, last.count) = (block, 1);
        } else if data && last.start + last.count == block {
            last.count += 1;
        } else {
            let anode = self.anode(Need::Block)?;
            self.chains[chain].push(Extent { anode, start: block, count: 1 });
        }
        Ok(())
    }
}
