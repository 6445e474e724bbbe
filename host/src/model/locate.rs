//! Where the first fault of a disk is, in words. The number comes from the model's check; the place is looked for again by
//! that number's own rule, so that it names what the rule speaks of: a block, an anode, an entry or a path.

use std::collections::HashMap;

use super::check::check;
use super::layout::*;

/// How the names of a path are shown.
pub type Show<'a> = &'a dyn Fn(&[Vec<u8>]) -> String;

/// The number that the model's check answers, and where the fault is; nothing for an accepted disk.
pub fn locate(image: &[u8], show: Show) -> Option<(u32, String)> {
    let (mut blocks, mut anodes) = crate::calls::tables(image);
    let number = check(image, &mut blocks, &mut anodes);
    let place = match number {
        0 => return None,
        1 => size(image),
        3 => Some(format!("block 2: the first four bytes are {:?} and not {DISK_TYPE:?}", &root(image)[..4])),
        4 => root_fields(image),
        5 => slot(image),
        _ => behind_slots(image, number, show),
    };
    Some((number, place.unwrap_or_else(|| String::from("no place is known"))))
}

fn size(image: &[u8]) -> Option<String> {
    let (blocks, over) = (image.len() / BLOCK, image.len() % BLOCK);
    Some(match over {
        0 => format!("the image has {blocks} blocks"),
        _ => format!("the image has {} bytes: {blocks} blocks and {over} bytes more", image.len()),
    })
}

fn root_fields(image: &[u8]) -> Option<String> {
    let (root, blocks) = (root(image), image.len() / BLOCK);
    let (first, last) = (word(root, ROOT_FIRST_RESERVED), last_reserved(image));
    if first != 0 {
        return Some(format!("block 2: first reserved is {first} and not 0"));
    }
    if !(2..blocks).contains(&usize::from(last)) {
        return Some(format!("block 2: last reserved is {last}, and must be 2 to {}", blocks - 1));
    }
    Some(format!(
        "block 2: the disk's name has {} bytes, and must have 1 to {LONGEST_DISK_NAME}",
        root[ROOT_NAME]
    ))
}

fn slot(image: &[u8]) -> Option<String> {
    let (slots, blocks) = (slots(image), image.len() / BLOCK);
    if slots[0] == 0 {
        return Some(String::from("block 2: slot 0 names no anode block"));
    }
    let mut used = used_slots(&slots);
    used.find_map(|(slot, number)| {
        if !(3..blocks).contains(&usize::from(number)) {
            return Some(format!(
                "block 2: slot {slot} names block {number}, and must name one of 3 to {}",
                blocks - 1
            ));
        }
        let bytes = block(image, number);
        if bytes[..2] != ANODE_MARK {
            return Some(format!("block {number}, the anode block of slot {slot}, has not the mark AB"));
        }
        let sequence = word(bytes, ANODE_SEQUENCE);
        let wrong = usize::from(sequence) != slot;
        wrong.then(|| {
            format!("block {number}, the anode block of slot {slot}, has the sequence number {sequence}")
        })
    })
}

/// The anodes of a disk whose slots are right.
struct Anodes {
    table: AnodeTable,
    /// In use, from 1 up.
    in_use: Vec<u16>,
    /// The anodes before each, by number.
    before: HashMap<u16, Vec<u16>>,
    blocks: usize,
    last_reserved: u16,
}

fn behind_slots(image: &[u8], number: u32, show: Show) -> Option<String> {
    let table = AnodeTable::read(image);
    let in_use: Vec<u16> = table.existing().filter(|&number| number != 0 && table[number].in_use()).collect();
    let mut before: HashMap<u16, Vec<u16>> = HashMap::new();
    for &number in in_use.iter().filter(|&&number| table[number].next != 0) {
        before.entry(table[number].next).or_default().push(number);
    }
    let blocks = image.len() / BLOCK;
    let anodes = Anodes { table, in_use, before, blocks, last_reserved: last_reserved(image) };
    match number {
        6 => anodes.fixed(),
        7 => anodes.fields(),
        8 => anodes.links(),
        9 => anodes.free_list(),
        10 | 11 => anodes.owners(number),
        12..=15 | 17 => Walk::run(image, &anodes, show),
        16 => anodes.unnamed(image),
        _ => None,
    }
}

/// The three fields of an anode.
fn fields(anode: Anode) -> String {
    format!("({}, {}, {})", anode.count, anode.block, anode.next)
}

/// The blocks of an anode.
fn extent(anode: Anode) -> String {
    match anode.count {
        0 => String::from("no blocks"),
        1 => format!("block {}", anode.block),
        _ => format!("blocks {} to {}", anode.block, anode.end() - 1),
    }
}

fn list(numbers: &[u16]) -> String {
    numbers.iter().map(u16::to_string).collect::<Vec<_>>().join(", ")
}

impl Anodes {
    fn fixed(&self) -> Option<String> {
        let told = |number: u16, must: &str| {
            format!("anode {number} is {}, and must {must}", fields(self.table[number]))
        };
        let free_list = self.table[FREE_LIST];
        if self.table[0] != Anode::empty(0) {
            return Some(told(0, "be (0, 65535, 0)"));
        }
        if free_list.count != 0 || free_list.block != 65_535 {
            return Some(told(FREE_LIST, "have the count 0 and the block 65535"));
        }
        [RESERVED, ROOT_DIRECTORY]
            .into_iter()
            .find(|&number| self.table[number].is_free())
            .map(|number| told(number, "be in use"))
    }

    fn fields(&self) -> Option<String> {
        self.in_use.iter().find_map(|&number| {
            let anode = self.table[number];
            let about = format!("anode {number} is {}", fields(anode));
            if anode.is_half_cleared() {
                return Some(format!("{about}: its block is 0, and its count or next is not"));
            }
            if anode.count != 0 && anode.end() > self.blocks {
                return Some(format!(
                    "{about}: {}, and the disk ends with block {}",
                    extent(anode),
                    self.blocks - 1
                ));
            }
            let lost = anode.next != 0 && !self.table.in_use(anode.next);
            lost.then(|| format!("{about}: its next, anode {}, is not in use", anode.next))
        })
    }

    fn links(&self) -> Option<String> {
        let mut followed: Vec<(&u16, &Vec<u16>)> = self.before.iter().collect();
        followed.sort();
        if let Some((number, before)) = followed.iter().find(|(_, before)| before.len() > 1) {
            return Some(format!("anode {number} is the next of anodes {}", list(before)));
        }
        let heads = [FREE_LIST, TO_BE_FREED, BAD_BLOCKS, ROOT_DIRECTORY];
        if let Some((number, before)) = followed.iter().find(|(number, _)| heads.contains(number)) {
            return Some(format!(
                "anode {number} begins a chain of its own, and is the next of anode {}",
                before[0]
            ));
        }
        self.in_use.iter().find_map(|&number| {
            let ring: Vec<u16> = self.ring(number)?;
            Some(format!("anode {number} is on a chain that never ends: {}", list(&ring)))
        })
    }

    /// The anodes from one on until it comes again, if it does.
    fn ring(&self, number: u16) -> Option<Vec<u16>> {
        let mut ring = vec![number];
        for (after, _) in self.table.chain(number).skip(1) {
            if after == number {
                return Some(ring);
            }
            ring.push(after);
        }
        None
    }

    fn free_list(&self) -> Option<String> {
        let mut lower = false;
        for (number, anode) in self.table.chain(FREE_LIST).skip(1) {
            lower |= number == RESERVED;
            let (wrong, side) = match lower {
                true => (anode.end() > usize::from(self.last_reserved) + 1, "from anode 2 on"),
                false => (anode.block <= self.last_reserved, "before anode 2"),
            };
            if anode.count != 0 && wrong {
                let (extent, last) = (extent(anode), self.last_reserved);
                return Some(format!(
                    "anode {number} on the free list, {side}: {extent}, and last reserved is {last}"
                ));
            }
        }
        (!lower).then(|| String::from("anode 2 is not on the free list, which begins with anode 1"))
    }

    /// The lowest block with two owners or with none.
    fn owners(&self, number: u32) -> Option<String> {
        let mut owners: Vec<Vec<String>> = vec![Vec::new(); self.blocks];
        owners[..3].iter_mut().for_each(|owners| owners.push(String::from("the start of the disk")));
        for (slot, number) in used_slots(self.table.slots()) {
            owners[usize::from(number)].push(format!("slot {slot} as an anode block"));
        }
        for &number in &self.in_use {
            let anode = self.table[number];
            let blocks = usize::from(anode.block)..anode.end().min(self.blocks);
            for owners in owners.get_mut(blocks).into_iter().flatten().filter(|_| anode.count != 0) {
                owners.push(format!("anode {number}"));
            }
        }
        let wrong =
            owners
                .iter()
                .position(|owners| if number == 10 { owners.len() > 1 } else { owners.is_empty() })?;
        Some(match owners[wrong].as_slice() {
            [] => format!("block {wrong} has no owner"),
            owners => format!("block {wrong} is owned by {}", owners.join(" and ")),
        })
    }

    /// The first chain that no entry names.
    fn unnamed(&self, image: &[u8]) -> Option<String> {
        let mut named = vec![false; ANODES];
        let mut directories = vec![ROOT_DIRECTORY];
        while let Some(directory) = directories.pop() {
            for number in self.table.chain_blocks(directory) {
                for entry in Entries::of(block(image, number)).flatten() {
                    named[usize::from(entry.anode)] = true;
                    directories.extend((entry.kind == DIRECTORY).then_some(entry.anode));
                }
            }
        }
        let lost = |&&number: &&u16| {
            number >= FIRST_USER && !self.before.contains_key(&number) && !named[usize::from(number)]
        };
        let head = *self.in_use.iter().find(lost)?;
        let extents: Vec<String> = self.table.chain(head).map(|(_, anode)| extent(anode)).collect();
        Some(format!("the chain of anode {head} is named by no entry: {}", extents.join(", ")))
    }
}

/// The walk over the directories, with the path of each.
struct Walk<'a> {
    anodes: &'a Anodes,
    show: Show<'a>,
    /// The path of each anode that an entry named.
    named: HashMap<u16, Vec<Vec<u8>>>,
    /// Directories with their paths and parents.
    queue: Vec<(u16, Vec<Vec<u8>>, u16)>,
}

impl<'a> Walk<'a> {
    fn run(image: &[u8], anodes: &'a Anodes, show: Show<'a>) -> Option<String> {
        let queue = vec![(ROOT_DIRECTORY, Vec::new(), 0)];
        let mut walk = Walk { anodes, show, named: HashMap::new(), queue };
        let mut turn = 0;
        while let Some((directory, path, parent)) = walk.queue.get(turn).cloned() {
            if let Some(fault) = walk.visit(image, directory, &path, parent) {
                return Some(fault);
            }
            turn += 1;
        }
        None
    }

    fn visit(&mut self, image: &[u8], directory: u16, path: &[Vec<u8>], parent: u16) -> Option<String> {
        let about = format!("directory {}", (self.show)(path));
        let mut names = HashMap::new();
        for (number, anode) in self.anodes.table.chain(directory) {
            if anode.count != 1 {
                return Some(format!("{about}: anode {number} has {} blocks and not 1", anode.count));
            }
            let (bytes, at) = (block(image, anode.block), format!("{about}: its block {}", anode.block));
            let (owner, above) = (word(bytes, DIRECTORY_OWNER), word(bytes, DIRECTORY_PARENT));
            if bytes[..2] != DIRECTORY_MARK {
                return Some(format!("{at} has not the mark DB"));
            }
            if owner != directory {
                return Some(format!("{at} says that it belongs to anode {owner} and not {directory}"));
            }
            if directory != ROOT_DIRECTORY && above != parent {
                return Some(format!("{at} has the parent {above} and not {parent}"));
            }
            if let Some(fault) = self.entries(bytes, anode.block, directory, path, &mut names) {
                return Some(fault);
            }
        }
        None
    }

    fn entries(
        &mut self,
        bytes: &[u8],
        block: u16,
        directory: u16,
        path: &[Vec<u8>],
        seen: &mut HashMap<Vec<u8>, String>,
    ) -> Option<String> {
        let mut end = FIRST_ENTRY;
        for entry in Entries::of(bytes) {
            let Ok(entry) = entry else {
                let about = (self.show)(path);
                return Some(format!(
                    "directory {about}: the entry at byte {end} of block {block} breaks the rules"
                ));
            };
            end = entry.at + entry.length;
            let mut names = path.to_vec();
            names.push(entry.name.to_vec());
            let about = format!("{}, at byte {} of block {block}", (self.show)(&names), entry.at);
            if let Some(other) = seen.insert(folded(entry.name), about.clone()) {
                return Some(format!("{about}, has the name of {other}, capitals counted as small letters"));
            }
            if let Some(fault) = self.meet(&entry, block, directory, names) {
                return Some(fault);
            }
        }
        None
    }

    fn meet(&mut self, entry: &Entry, block: u16, directory: u16, path: Vec<Vec<u8>>) -> Option<String> {
        let (number, table) = (entry.anode, &self.anodes.table);
        let about = format!("{}, at byte {} of block {block}", (self.show)(&path), entry.at);
        let wrong = match number {
            0..FIRST_USER => Some("which is under 6".to_string()),
            _ if !table.in_use(number) => Some("which is not in use".to_string()),
            _ => self
                .anodes
                .before
                .get(&number)
                .map(|before| format!("which is the next of anode {}", before[0])),
        };
        if let Some(wrong) = wrong {
            return Some(format!("{about}, names anode {number}, {wrong}"));
        }
        if let Some(other) = self.named.get(&number) {
            return Some(format!(
                "{about}, names anode {number}, which {} names already",
                (self.show)(other)
            ));
        }
        self.named.insert(number, path.clone());
        if entry.kind == DIRECTORY {
            self.queue.push((number, path, directory));
            return None;
        }
        let held: usize = table.chain(number).map(|(_, anode)| usize::from(anode.count)).sum();
        let needed = entry.size.div_ceil(BLOCK as u32) as usize;
        let wrong = held != needed;
        wrong.then(|| {
            format!(
                "{about}: {} bytes need {needed} blocks, and its chain of anode {number} has {held}",
                entry.size
            )
        })
    }
}
