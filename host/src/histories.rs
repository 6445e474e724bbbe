//! Random calls for histories: their arguments are mostly such that the call can be done on the disk, at times
//! such that it must be refused, and often at the very edge.

use std::ops::RangeInclusive;

use crate::bitmap::{length, BITMAP_BLOCK};
use crate::calls::{Call, Stamp, BLOCK, DIRECTORY, FILE, ROOT, TOTALS};
use crate::disk::{Disk, Kind};
use crate::model::layout::{last_reserved, slots, used_slots, AnodeTable};
use crate::model::Model;
use crate::names::{near, recased};
use crate::rng::Rng;
use crate::shapes::format_call;
use crate::tree::{Node, Tree};

/// What most calls of a history do.
#[derive(Clone, Copy, Debug, PartialEq, Eq)]
pub enum Trend {
    Mixed,
    /// Fills the disk with bytes.
    Growing,
    /// Fills the anode table and the directories with entries.
    Making,
    /// Empties the disk.
    Shrinking,
}

impl Trend {
    pub fn random(rng: &mut Rng) -> Self {
        [Trend::Mixed, Trend::Growing, Trend::Making, Trend::Shrinking][rng.below(4)]
    }

    /// The trend of the next call: mostly the same.
    pub fn next(self, rng: &mut Rng) -> Self {
        match rng.percent(3) {
            true => Trend::random(rng),
            false => self,
        }
    }

    /// How many calls in a hundred are make, resize and remove; the others look, write or, rarely, format.
    fn shares(self) -> [usize; 3] {
        match self {
            Trend::Mixed => [20, 25, 12],
            Trend::Growing => [12, 60, 4],
            Trend::Making => [70, 10, 4],
            Trend::Shrinking => [4, 30, 45],
        }
    }
}

/// A call on an accepted disk that holds this tree and has this many blocks free.
pub fn random_call(image: &[u8], tree: &Tree, trend: Trend, free: usize, rng: &mut Rng) -> Call {
    let [make, resize, remove] = trend.shares();
    let throw = rng.below(100);
    let bare = tree.counts().0 == 0;
    if throw < make || (bare && rng.percent(60)) {
        make_call(tree, rng)
    } else if throw < make + resize {
        resize_call(image, tree, trend, free, rng)
    } else if throw < make + resize + remove {
        let (directory, name) = any_entry(tree, |_| true, rng);
        Call::Remove { directory, name }
    } else {
        other_call(tree, image.len() / BLOCK, rng)
    }
}

/// A safe change of such a disk; often one that needs all blocks that are free, or one more.
pub fn random_safe_call(image: &[u8], tree: &Tree, trend: Trend, free: usize, rng: &mut Rng) -> Call {
    let change = match rng.below(10) {
        0 => {
            let (directory, name) = any_file(tree, rng);
            let others = 1 + used_slots(&slots(image)).count();
            let most = (free.saturating_sub(others) * BLOCK) as u64;
            let missing = rng.below(BLOCK) as u64;
            let size = [most, most + 1, most.saturating_sub(missing), most + 1 + missing][rng.below(4)];
            Call::Resize { directory, name, size }
        }
        1 | 2 => write_call(tree, rng),
        _ => random_call(image, tree, trend, free, rng),
    };
    match change.safely(0) {
        Some(call) => call,
        None => random_safe_call(image, tree, trend, free, rng),
    }
}

fn other_call(tree: &Tree, blocks: usize, rng: &mut Rng) -> Call {
    match rng.below(20) {
        0 => Call::Check,
        1 if rng.percent(50) => Call::Label,
        1 => Call::Summary,
        2 if rng.percent(20) => random_format(blocks, rng),
        2 if rng.percent(60) => bitmap_call(blocks, rng),
        2 => report_call(rng),
        3..=5 => list_call(tree, rng),
        6 | 7 => {
            let (directory, name) = any_entry(tree, |_| true, rng);
            Call::Find { directory, name }
        }
        8..=12 => write_call(tree, rng),
        _ => read_call(tree, rng),
    }
}

/// A bitmap made or compared, mostly of as many bitmap blocks as a disk of this size can need.
fn bitmap_call(blocks: usize, rng: &mut Rng) -> Call {
    let needed = length(blocks, rng.within16(2..=4));
    let length = match rng.below(8) {
        0 => 0,
        1 => needed.saturating_sub(1),
        2 => needed + BITMAP_BLOCK,
        _ => needed,
    };
    match rng.percent(50) {
        true => Call::Bitmap { length },
        false => Call::BitmapDiffers { bitmap: vec![[0, b'B'][rng.below(2)]; length] },
    }
}

/// A report, mostly to totals that take the disk; now and then at the very edge, or past it.
fn report_call(rng: &mut Rng) -> Call {
    let mut totals = [0; TOTALS];
    for count in &mut totals[..18] {
        *count = rng.below(5_000) as u64;
    }
    for sum in &mut totals[18..] {
        *sum = rng.below(10_000_000_000_000) as u64;
    }
    let edge = |limit: u64, rng: &mut Rng| [limit - 1, limit, limit + 1, u64::MAX][rng.below(4)];
    match rng.below(4) {
        0 => {
            let others: u64 = totals[1..18].iter().sum();
            totals[0] = edge(100_000 - others, rng);
        }
        1 => totals[18 + rng.below(6)] = edge(10_000_000_000_000, rng),
        2 if rng.percent(20) => {
            let [first, second] = [rng.below(18), rng.below(18)];
            totals[first] = 1 << 63;
            totals[second] = 1 << 63;
        }
        _ => {}
    }
    Call::Report { totals }
}

/// A directory of the tree, or now and then a number that is none.
fn any_directory(tree: &Tree, rng: &mut Rng) -> u16 {
    let numbers: Vec<u16> = tree.directories.keys().copied().collect();
    let known = rng.pick(&numbers).copied().unwrap_or(ROOT);
    if rng.percent(95) {
        return known;
    }
    let nodes: Vec<u16> = tree.directories[&known].nodes().map(|node| node.entry.anode).collect();
    match rng.below(4) {
        0 => rng.within16(0..=4),
        1 => rng.pick(&nodes).copied().unwrap_or(6),
        2 => [65_535, 3_443, 3_444][rng.below(3)],
        _ => rng.word(),
    }
}

/// An entry that fits, by directory and name; now and then the directory or the name is another one, and often the name is
/// written in another case.
fn any_entry(tree: &Tree, fits: impl Fn(&Node) -> bool, rng: &mut Rng) -> (u16, Vec<u8>) {
    let all =
        tree.directories.iter().flat_map(|(&directory, d)| d.nodes().map(move |node| (directory, node)));
    let fitting: Vec<(u16, &Node)> = all.filter(|(_, node)| fits(node)).collect();
    let Some(&(directory, node)) = rng.pick(&fitting) else {
        return (any_directory(tree, rng), fresh_name(rng));
    };
    let name = match rng.percent(30) {
        true => recased(&node.entry.name, rng),
        false => node.entry.name.clone(),
    };
    match rng.below(100) {
        0..=2 => (any_directory(tree, rng), name),
        3 | 4 => (directory, fresh_name(rng)),
        5 => (directory, impossible_name(rng)),
        6..=10 => (directory, near(&name, rng).unwrap_or(name)),
        _ => (directory, name),
    }
}

/// A file, or now and then a directory.
fn any_file(tree: &Tree, rng: &mut Rng) -> (u16, Vec<u8>) {
    let kind = if rng.percent(95) { Kind::File } else { Kind::Directory };
    any_entry(tree, |node| node.entry.kind == kind, rng)
}

fn fresh_name(rng: &mut Rng) -> Vec<u8> {
    let length = match rng.below(4) {
        0 => 1,
        1 => rng.within(1..=4),
        2 => rng.within(1..=20),
        _ => rng.within(100..=107),
    };
    // Some of them have bytes that look as if they were folded too, and are not.
    let odd = if rng.percent(20) { 30 } else { 0 };
    let letter = |rng: &mut Rng| [b'a', b'A'][rng.below(2)] + rng.below(26) as u8;
    let not_folded = [b'@', b'`', b'[', b'{', b'^', b'~', 196, 228, 222, 254];
    (0..length)
        .map(|_| if rng.percent(odd) { not_folded[rng.below(not_folded.len())] } else { letter(rng) })
        .collect()
}

/// A name that no entry can have.
fn impossible_name(rng: &mut Rng) -> Vec<u8> {
    let mut name = fresh_name(rng);
    match rng.below(4) {
        0 => name.clear(),
        1 => name.resize(rng.within(108..=300), b'x'),
        _ => {
            let place = rng.below(name.len());
            name[place] = [0, b':', b'/'][rng.below(3)];
        }
    }
    name
}

fn make_call(tree: &Tree, rng: &mut Rng) -> Call {
    let kind = match rng.below(40) {
        0 => rng.byte(),
        1..=10 => DIRECTORY,
        _ => FILE,
    };
    let (directory, name) = match rng.below(20) {
        0 => (any_directory(tree, rng), impossible_name(rng)),
        1 | 2 => any_entry(tree, |_| true, rng),
        3 => (any_directory(tree, rng), any_entry(tree, |_| true, rng).1),
        4 => {
            let (directory, name) = any_entry(tree, |_| true, rng);
            (directory, near(&name, rng).unwrap_or(name))
        }
        _ => (any_directory(tree, rng), fresh_name(rng)),
    };
    let comment_length = match rng.below(20) {
        0 => rng.within(80..=300),
        1..=3 => 79,
        4..=7 => rng.within(0..=79),
        _ => 0,
    };
    Call::Make {
        directory,
        kind,
        name,
        comment: rng.bytes(comment_length),
        stamp: rng.stamp(),
        protection: rng.byte(),
    }
}

fn resize_call(image: &[u8], tree: &Tree, trend: Trend, free: usize, rng: &mut Rng) -> Call {
    let (directory, name) = any_file(tree, rng);
    let old = tree.size(directory, &name);
    let held = old.next_multiple_of(BLOCK);
    let most = held + free * BLOCK;
    let shrinks = trend != Trend::Growing && old > 0;
    let head = tree.find(directory, &name).map_or(0, |node| node.entry.anode);
    let size = match rng.below(12) {
        0 => old as u64,
        1 => held as u64,
        2 => held as u64 + 1,
        3 => most as u64,
        4 => most as u64 + 1,
        5 => impossible_size(rng),
        6 | 7 if shrinks => aimed_size(image, head, rng),
        8 if shrinks => 0,
        _ if shrinks && trend == Trend::Shrinking => aimed_size(image, head, rng),
        _ => rng.within(old..=(old + 2_000).min(most.max(old))) as u64,
    };
    Call::Resize { directory, name, size }
}

/// A size for a file that has blocks, mostly smaller: its new end lies at the end of an extent, a block beside it, before or
/// in the extent that crosses last reserved, or anywhere, and half of the time only the last extents go.
fn aimed_size(image: &[u8], head: u16, rng: &mut Rng) -> u64 {
    let Ends { ends, crossing } = Ends::of(image, head);
    let held = ends[ends.len() - 1];
    let far = if rng.percent(50) { ends.len() } else { 4 };
    let end = rng.pick(&ends[ends.len().saturating_sub(far)..]).copied().unwrap_or(held);
    let blocks = match (rng.below(6), crossing) {
        (0, Some(range)) => *range.start(),
        (1 | 2, Some(range)) => rng.within(range),
        (0 | 1, _) => end,
        (2, _) => end.saturating_sub(1),
        (3, _) => held.min(end + 1),
        (4, _) => rng.within(end..=held),
        _ => rng.within(0..=held),
    };
    let missing = if rng.percent(50) { 0 } else { rng.below(BLOCK) };
    (blocks * BLOCK).saturating_sub(missing) as u64
}

/// Where the extents of a file end, in blocks of the file.
struct Ends {
    /// Its start, and the end of each extent.
    ends: Vec<usize>,
    /// From the start of the extent that crosses last reserved up to there.
    crossing: Option<RangeInclusive<usize>>,
}

impl Ends {
    fn of(image: &[u8], head: u16) -> Self {
        let above = usize::from(last_reserved(image)) + 1;
        let (mut held, mut ends, mut crossing) = (0, vec![0], None);
        for (_, anode) in AnodeTable::read(image).chain(head) {
            let start = usize::from(anode.block);
            if start < above && above < anode.end() {
                crossing = Some(held..=held + above - start);
            }
            held += usize::from(anode.count);
            ends.push(held);
        }
        Ends { ends, crossing }
    }
}

/// A size that no disk can hold.
fn impossible_size(rng: &mut Rng) -> u64 {
    let many = [0xFFFF_FFFF, 0x1_0000_0000, 0x1_0000_0200, u64::MAX, u64::MAX - 511, 65_535 * 512];
    many[rng.below(many.len())]
}

/// An offset and a length for a file of this size, within it or just past its end.
fn any_range(size: usize, rng: &mut Rng) -> (u64, usize) {
    if rng.percent(3) {
        return ([u64::MAX, 1 << 32, 1 << 63][rng.below(3)], rng.below(4));
    }
    let offset = match rng.below(4) {
        0 => 0,
        1 => size,
        _ => rng.within(0..=size),
    };
    let length = match rng.below(5) {
        0 => 0,
        1 => size - offset,
        2 => size - offset + 1,
        3 => rng.below(600).min(size - offset),
        _ => rng.within(0..=size - offset),
    };
    (offset as u64 + u64::from(rng.percent(3)), length)
}

fn read_call(tree: &Tree, rng: &mut Rng) -> Call {
    let (directory, name) = any_file(tree, rng);
    let (offset, length) = any_range(tree.size(directory, &name), rng);
    Call::Read { directory, name, offset, length }
}

fn write_call(tree: &Tree, rng: &mut Rng) -> Call {
    let (directory, name) = any_file(tree, rng);
    let (offset, length) = any_range(tree.size(directory, &name), rng);
    Call::Write { directory, name, offset, data: rng.bytes(length) }
}

fn list_call(tree: &Tree, rng: &mut Rng) -> Call {
    let directory = any_directory(tree, rng);
    let entries = tree.directories.get(&directory).map_or(0, |d| d.nodes().count());
    let place = match rng.below(10) {
        0 => entries as u64,
        1 => [u64::MAX, 1 << 32, 65_536][rng.below(3)],
        _ => rng.below(entries.max(1)) as u64,
    };
    Call::List { directory, place }
}

/// A format, mostly one that must be refused.
fn random_format(blocks: usize, rng: &mut Rng) -> Call {
    let mut call = format_call(blocks, rng);
    if let (Call::Format { last_reserved, anode_blocks, name, .. }, true) = (&mut call, rng.percent(80)) {
        match rng.below(5) {
            0 => *anode_blocks = [0, 43, 65_535][rng.below(3)],
            1 => *last_reserved = *anode_blocks + 2,
            2 => *last_reserved = blocks as u16,
            3 => name.clear(),
            _ => name.resize(rng.within(32..=300), b'n'),
        }
    }
    call
}

/// Every change of every entry that blocks and anodes can stop: sizes by whole blocks up to some more than it has, its
/// removal, and in every directory a file and a directory with a short name and with the longest one and comment.
pub fn every_change(tree: &Tree) -> Vec<Call> {
    let mut calls = Vec::new();
    for (&directory, entries) in &tree.directories {
        for node in entries.nodes() {
            let name = node.entry.name.clone();
            let held = node.content.len().div_ceil(BLOCK);
            if node.entry.kind == Kind::File {
                let sizes = (0..=held + 3).map(|blocks| (blocks * BLOCK) as u64);
                calls.extend(sizes.map(|size| Call::Resize { directory, name: name.clone(), size }));
            }
            calls.push(Call::Remove { directory, name });
        }
        for kind in [FILE, DIRECTORY] {
            for (name, comment) in [(vec![b'@'], Vec::new()), (vec![b'@'; 107], vec![b'c'; 79])] {
                let stamp = Stamp::default();
                calls.push(Call::Make { directory, kind, name, comment, stamp, protection: 0 });
            }
        }
    }
    calls
}

/// The anode of the entry of this name in an accepted image, by the model; 0 if there is none.
pub fn head_of(image: &[u8], directory: u16, name: &[u8]) -> u16 {
    Disk::<Model>::new(image.to_vec()).find(directory, name).map_or(0, |entry| entry.anode)
}

/// Does to the tree what a done change did to the disk that is now in `image`.
pub fn follow(tree: &mut Tree, call: &Call, image: &[u8]) {
    let made = match call {
        Call::Make { directory, name, .. } | Call::SafeMake { directory, name, .. } => {
            head_of(image, *directory, name)
        }
        _ => 0,
    };
    tree.apply(call, made);
}
