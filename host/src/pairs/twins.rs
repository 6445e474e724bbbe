//! Second disks for a first one: after changes that a comparison must tell, and after some that it must not.

use crate::calls::{run, tables, Call, BLOCK, DIRECTORY, FILE, ROOT};
use crate::disk::Kind;
use crate::histories::{follow, random_call, Trend};
use crate::model::layout::{
    block_mut, put_long, put_word, AnodeTable, ENTRY_DAY, ENTRY_MINUTE, ENTRY_NAME, ENTRY_PROTECTION,
    ENTRY_SIZE, ENTRY_TICK, ROOT_BLOCK, ROOT_DAY, ROOT_NAME, ROOT_PROTECTION,
};
use crate::model::{totals, Model};
use crate::names::{alike, recased};
use crate::rng::Rng;
use crate::shapes::{formatted, Shaped};
use crate::starts::Start;
use crate::tree::{entry_length, Node, Tree};

/// Makes a call on a disk by the model; a done change is done to the tree too.
fn call(disk: &mut Shaped, call: &Call) -> u32 {
    let (mut blocks, mut anodes) = tables(&disk.image);
    let answer = run::<Model>(call, &mut disk.image, &mut blocks, &mut anodes).answer;
    if answer == 0 && call.changes() {
        follow(&mut disk.tree, call, &disk.image);
    }
    answer
}

/// Any entry of a disk, by its directory and its place there.
fn any_node(tree: &Tree, rng: &mut Rng) -> Option<(u16, Node)> {
    let all =
        tree.directories.iter().flat_map(|(&directory, d)| d.nodes().map(move |node| (directory, node)));
    let all: Vec<(u16, &Node)> = all.collect();
    rng.pick(&all).map(|&(directory, node)| (directory, node.clone()))
}

fn node_mut<'a>(tree: &'a mut Tree, directory: u16, name: &[u8]) -> Option<&'a mut Node> {
    let directory = tree.directories.get_mut(&directory)?;
    directory.blocks.iter_mut().flatten().find(|node| alike(&node.entry.name, name))
}

/// The byte of the image where the entry of this name begins.
pub fn place_of(image: &[u8], directory: u16, name: &[u8]) -> usize {
    let (mut blocks, mut anodes) = tables(image);
    let call = Call::Find { directory, name: name.to_vec() };
    let outcome = run::<Model>(&call, &mut image.to_vec(), &mut blocks, &mut anodes);
    assert_eq!(outcome.answer, 0, "the entry is there");
    outcome.output.entry[7] as usize - ENTRY_NAME
}

/// Changes a field of an entry where it stands: stamps, protection, a byte of the comment, or capitals of the name.
fn edit(disk: &mut Shaped, rng: &mut Rng) {
    let Some((directory, Node { entry, .. })) = any_node(&disk.tree, rng) else {
        return;
    };
    let at = place_of(&disk.image, directory, &entry.name);
    let mut new = entry.clone();
    match rng.below(4) {
        0 => {
            let field = [&mut new.stamp.day, &mut new.stamp.minute, &mut new.stamp.tick];
            *field[rng.below(3)] ^= 1 << rng.below(16);
        }
        1 => new.protection ^= 1 << rng.below(8),
        2 if !new.comment.is_empty() => {
            let place = rng.below(new.comment.len());
            new.comment[place] ^= 1 << rng.below(8);
        }
        _ => new.name = recased(&new.name, rng),
    }
    for (field, value) in
        [(ENTRY_DAY, new.stamp.day), (ENTRY_MINUTE, new.stamp.minute), (ENTRY_TICK, new.stamp.tick)]
    {
        put_word(&mut disk.image, at + field, value);
    }
    disk.image[at + ENTRY_PROTECTION] = new.protection;
    disk.image[at + ENTRY_NAME..][..new.name.len()].copy_from_slice(&new.name);
    disk.image[at + ENTRY_NAME + new.name.len() + 1..][..new.comment.len()].copy_from_slice(&new.comment);
    if let Some(node) = node_mut(&mut disk.tree, directory, &entry.name) {
        node.entry = new;
    }
}

/// Makes an entry anew, at times of the other type, with other fields or another size, and mostly with the same bytes.
fn remake(disk: &mut Shaped, rng: &mut Rng) {
    let Some((directory, Node { entry, mut content })) = any_node(&disk.tree, rng) else {
        return;
    };
    if call(disk, &Call::Remove { directory, name: entry.name.clone() }) != 0 {
        return;
    }
    let name = if rng.percent(30) { recased(&entry.name, rng) } else { entry.name.clone() };
    let comment = if rng.percent(20) { rng.bytes(3) } else { entry.comment.clone() };
    let stamp = if rng.percent(20) { rng.stamp() } else { entry.stamp };
    let same = rng.percent(80);
    let kind = if same == (entry.kind == Kind::File) { FILE } else { DIRECTORY };
    let make =
        Call::Make { directory, kind, name: name.clone(), comment, stamp, protection: entry.protection };
    if call(disk, &make) != 0 || kind == DIRECTORY {
        return;
    }
    match rng.below(6) {
        0 => content.push(7),
        1 => content.truncate(content.len().saturating_sub(1)),
        2 => content.resize(rng.below(content.len() + 600), 8),
        3 | 4 if !content.is_empty() => {
            for _ in 0..rng.within(1..=3) {
                let place = rng.below(content.len());
                content[place] ^= 1 << rng.below(8);
            }
        }
        _ => {}
    }
    if call(disk, &Call::Resize { directory, name: name.clone(), size: content.len() as u64 }) == 0 {
        call(disk, &Call::Write { directory, name, offset: 0, data: content });
    }
}

/// Changes some bytes of a file, and nothing else.
fn poke(disk: &mut Shaped, rng: &mut Rng) {
    let Some((directory, Node { entry, content })) = any_node(&disk.tree, rng) else {
        return;
    };
    for _ in 0..if content.is_empty() { 0 } else { rng.within(1..=4) } {
        let offset = rng.below(content.len());
        let data = vec![content[offset] ^ 1 << rng.below(8)];
        call(disk, &Call::Write { directory, name: entry.name.clone(), offset: offset as u64, data });
    }
}

/// The same disk after so many changes: by random calls, by entries made anew, and by hand.
pub fn changed(disk: &Shaped, changes: usize, rng: &mut Rng) -> Shaped {
    let mut other = disk.clone();
    let mut trend = Trend::random(rng);
    for _ in 0..changes {
        trend = trend.next(rng);
        match rng.below(5) {
            0 => edit(&mut other, rng),
            1 => poke(&mut other, rng),
            2 | 3 => remake(&mut other, rng),
            _ => {
                let free = totals(&other.image).map_or(0, |totals| totals.free);
                let random = random_call(&other.image, &other.tree, trend, free, rng);
                call(&mut other, &random);
            }
        }
    }
    other
}

/// Changes what is not compared: name and fields of the disk, sizes in entries of directories, pads, and what lies behind the
/// sizes of files.
fn blur(disk: &mut Shaped, rng: &mut Rng) {
    let root = block_mut(&mut disk.image, ROOT_BLOCK);
    put_word(root, ROOT_DAY, rng.word());
    put_word(root, ROOT_PROTECTION, rng.word());
    root[ROOT_NAME + 1] = rng.byte();
    let table = AnodeTable::read(&disk.image);
    let all =
        disk.tree.directories.iter().flat_map(|(&directory, d)| d.nodes().map(move |node| (directory, node)));
    for (directory, Node { entry, .. }) in all {
        let at = place_of(&disk.image, directory, &entry.name);
        let unpadded = 17 + entry.name.len() + entry.comment.len();
        if entry_length(entry.name.len(), entry.comment.len()) > unpadded {
            disk.image[at + unpadded] = rng.byte();
        }
        let behind = entry.size as usize % BLOCK;
        match (entry.kind, table.chain_blocks(entry.anode).last()) {
            (Kind::Directory, _) => put_long(&mut disk.image, at + ENTRY_SIZE, rng.next64() as u32),
            (Kind::File, Some(last)) if behind > 0 => {
                rng.fill(&mut block_mut(&mut disk.image, last)[behind..])
            }
            _ => {}
        }
    }
}

/// A disk with the same tree as another of up to some hundred blocks, made anew: another size, another layout, other anodes,
/// and another order within each directory.
fn rebuilt(disk: &Shaped, rng: &mut Rng) -> Shaped {
    let (files, directories) = disk.tree.blocks();
    let blocks = files + 2 * directories + 100 + rng.below(100);
    let mut other = Shaped { image: formatted(blocks, rng), tree: Tree::default() };
    let mut files = Vec::new();
    let mut waiting = vec![(ROOT, ROOT)];
    while let Some((from, to)) = waiting.pop() {
        let mut nodes: Vec<&Node> = disk.tree.directories[&from].nodes().collect();
        rng.shuffle(&mut nodes);
        for Node { entry, content } in nodes {
            let (kind, name) = (entry.kind.type_byte(), entry.name.clone());
            let (comment, stamp, protection) = (entry.comment.clone(), entry.stamp, entry.protection);
            let make = Call::Make { directory: to, kind, name: name.clone(), comment, stamp, protection };
            assert_eq!(call(&mut other, &make), 0);
            match entry.kind {
                Kind::File => files.push((to, name, content)),
                Kind::Directory => {
                    let made = other.tree.find(to, &name).map_or(0, |node| node.entry.anode);
                    waiting.push((entry.anode, made));
                }
            }
        }
    }
    // In two turns, so that files lie in pieces.
    for part in [2, 1] {
        rng.shuffle(&mut files);
        for (directory, name, content) in &files {
            let size = (content.len() / part) as u64;
            assert_eq!(
                call(&mut other, &Call::Resize { directory: *directory, name: name.clone(), size }),
                0
            );
        }
    }
    for (directory, name, content) in files {
        assert_eq!(call(&mut other, &Call::Write { directory, name, offset: 0, data: content.clone() }), 0);
    }
    other
}

/// How the second disk of a pair came from the first.
#[derive(Clone, Copy, Debug, PartialEq, Eq, PartialOrd, Ord)]
pub enum Twin {
    /// After some changes.
    Changed,
    /// Made anew, with what is not compared in any state: it has no difference.
    Rebuilt,
    /// Made anew, after some changes.
    RebuiltAndChanged,
    /// Not at all.
    Unrelated,
}

impl Twin {
    pub const ALL: [Twin; 4] = [Twin::Changed, Twin::Rebuilt, Twin::RebuiltAndChanged, Twin::Unrelated];

    /// A second disk for a first one.
    pub fn of(self, first: &Shaped, rng: &mut Rng) -> Shaped {
        let changes = rng.within(1..=12);
        let mut second = match self {
            Twin::Changed => changed(first, changes, rng),
            Twin::Rebuilt => rebuilt(first, rng),
            Twin::RebuiltAndChanged => changed(&rebuilt(first, rng), changes, rng),
            Twin::Unrelated => Start::SMALL[rng.below(Start::SMALL.len())].disk(rng),
        };
        if rng.percent(70) {
            blur(&mut second, rng);
        }
        second
    }
}
