//! Safe changes (02, No. 8) cut off after every block write, and what they need and leave, from the tree and counts of blocks
//! alone.

use crate::calls::{self, run, tables, Call, Library, BLOCK, BLOCK_WRITE, DIRECTORY};
use crate::differences::Comparer;
use crate::disk::{Disk, Entry, Kind};
use crate::model::layout::{slots, used_slots, AnodeTable, ROOT_BLOCK};
use crate::model::naive::lists::Outcome;
use crate::model::naive::safe::{safe, Safe};
use crate::model::{self, Model};
use crate::names::alike;
use crate::rng::Rng;
use crate::safe::Writes;
use crate::tree::{entry_length, Node, Tree, ENTRY_SPACE};

/// The blocks that a safe change takes anew on an accepted disk that holds this tree; nothing for another call, or for one
/// that is refused before it takes any.
pub fn needed_blocks(image: &[u8], tree: &Tree, call: &Call) -> Option<u64> {
    if tree.refusal(call, image.len() / BLOCK).is_some() {
        return None;
    }
    let blocks = |size: u64| size.div_ceil(BLOCK as u64);
    let held = |directory: u16, name: &[u8]| tree.size(directory, name) as u64;
    let own = match call {
        Call::SafeMake { kind, .. } => 1 + u64::from(*kind == DIRECTORY),
        Call::SafeResize { directory, name, size, .. } => {
            blocks(*size) + u64::from(*size != held(*directory, name))
        }
        Call::SafeWrite { directory, name, .. } => blocks(held(*directory, name)),
        Call::SafeRemove { .. } => 1,
        _ => return None,
    };
    Some(own + used_slots(&slots(image)).count() as u64)
}

/// What a safe change that passes 20 to 26 comes to, worked out on lists, with the blocks that it writes in order; nothing for
/// another call.
pub fn worked_out_safely(image: &[u8], tree: &Tree, call: &Call) -> Option<(Outcome, Vec<u16>)> {
    needed_blocks(image, tree, call)?;
    let table = AnodeTable::read(image);
    // The block of the directory where the entry is, or has room.
    let block = |directory: u16, fits: &dyn Fn(&[Node]) -> bool| {
        let place = tree.directories.get(&directory)?.blocks.iter().position(|nodes| fits(nodes))?;
        table.chain_blocks(directory).nth(place)
    };
    let there = |directory: u16, name: &[u8]| {
        block(directory, &|nodes| nodes.iter().any(|node| alike(&node.entry.name, name)))
    };
    let head = |directory: u16, name: &[u8]| tree.find(directory, name).map(|node| node.entry.anode);
    let blocks = |size: u64| size.div_ceil(BLOCK as u64);
    Some(match call {
        Call::SafeMake { directory, kind, name, comment, .. } => {
            let length = entry_length(name.len(), comment.len());
            let place = block(*directory, &|nodes| {
                nodes.iter().map(Node::length).sum::<usize>() + length <= ENTRY_SPACE
            });
            safe(image, 0, *directory, Safe::Make { is_directory: *kind == DIRECTORY, place })
        }
        Call::SafeResize { directory, name, size, .. } => {
            let differs = *size != tree.size(*directory, name) as u64;
            let place = there(*directory, name).filter(|_| differs);
            safe(image, head(*directory, name)?, *directory, Safe::Anew { blocks: blocks(*size), place })
        }
        Call::SafeWrite { directory, name, .. } => {
            let blocks = blocks(tree.size(*directory, name) as u64);
            safe(image, head(*directory, name)?, *directory, Safe::Anew { blocks, place: None })
        }
        Call::SafeRemove { directory, name, .. } => {
            let place = there(*directory, name)?;
            safe(image, head(*directory, name)?, *directory, Safe::Remove { place })
        }
        _ => return None,
    })
}

/// The bytes that the list of a safe change takes, by the model; 0 if it is refused.
pub fn list_length(call: &Call, image: &[u8]) -> usize {
    let roomy = call.with_room((image.len() / BLOCK) * BLOCK_WRITE);
    let (mut blocks, mut anodes) = tables(image);
    let outcome = run::<Model>(&roomy, &mut image.to_vec(), &mut blocks, &mut anodes);
    outcome.output.count[0] as usize * BLOCK_WRITE
}

/// A safe call with a buffer for a list of this length: mostly enough, often just so, at times a byte too short.
pub fn any_room(call: &Call, length: usize, rng: &mut Rng) -> Call {
    call.with_room(match rng.below(8) {
        0 => 0,
        1 => length.saturating_sub(1),
        2 => length.saturating_sub(rng.below(BLOCK_WRITE + 2)),
        3 => length + 1,
        4 => length + rng.below(2_000),
        _ => length,
    })
}

/// The list that a safe call handed out.
pub fn writes_of(outcome: &calls::Outcome) -> Writes {
    Writes::of(outcome.output.writes.clone(), outcome.output.count[0])
}

/// A done safe change from one image to another: every block is written once and was free before, the root is the last, and
/// all writes together make the new image of the old one.
pub fn assert_list(before: &[u8], after: &[u8], writes: &Writes) {
    let (mut owners, mut heads) = tables(before);
    assert_eq!(model::check(before, &mut owners, &mut heads), 0);
    let (others, root) = writes.parts();
    assert_eq!(root.map(|root| root.block), Some(ROOT_BLOCK), "the root is not the last");
    let mut image = before.to_vec();
    for write in others {
        let owner = std::mem::replace(&mut owners[usize::from(write.block)], 0);
        assert_eq!(owner, 1, "block {} is written and was not free, or was written before", write.block);
    }
    writes.apply(writes.len(), &mut image);
    assert!(image == after, "the writes do not make the new image");
}

/// Is it the same tree, by the comparison of disks?
fn same_tree<L: Library + Comparer>(one: &[u8], other: &[u8]) -> bool {
    let differences = Disk::<L>::new(one.to_vec()).differences(&mut Disk::new(other.to_vec()));
    differences.expect("a disk that was cut off is refused").is_empty()
}

/// Cuts a done safe change off after so many of its writes: what is left is accepted, and holds the old tree until the root
/// is written, and the new tree from then on.
pub fn assert_cut<L: Library + Comparer>(before: &[u8], after: &[u8], writes: &Writes, count: usize) {
    let mut image = before.to_vec();
    writes.apply(count, &mut image);
    let (mut blocks, mut anodes) = tables(&image);
    let answer = run::<L>(&Call::Check, &mut image, &mut blocks, &mut anodes).answer;
    let all = writes.len();
    assert_eq!(answer, 0, "cut off after {count} of {all} writes");
    let expected = if count < all { before } else { after };
    assert!(same_tree::<L>(expected, &image), "another tree after {count} of {all} writes");
}

/// The same after every number of writes.
pub fn assert_cuts<L: Library + Comparer>(before: &[u8], after: &[u8], writes: &Writes) {
    for count in 0..=writes.len() {
        assert_cut::<L>(before, after, writes, count);
    }
}

/// Lists and reads all that a disk holds: it is the tree, to the last byte.
pub fn assert_holds<L: Library>(image: &[u8], tree: &Tree) {
    let mut disk = Disk::<L>::new(image.to_vec());
    let summary = disk.summary().expect("the disk is accepted");
    let (files, directories) = tree.counts();
    assert_eq!((summary.files as usize, summary.directories as usize), (files, directories));
    for (&number, directory) in &tree.directories {
        let listed: Vec<_> = disk.list(number).map(|entry| entry.expect("it is listed")).collect();
        let nodes: Vec<_> = directory.nodes().collect();
        assert_eq!(listed.len(), nodes.len());
        for (entry, node) in listed.iter().zip(nodes) {
            let size = if entry.kind == Kind::Directory { entry.size } else { node.entry.size };
            assert_eq!(*entry, Entry { size, ..node.entry.clone() });
            if entry.kind == Kind::File {
                assert_eq!(disk.read_file(number, entry).as_ref(), Ok(&node.content));
            }
        }
    }
}
