//! The check again, row by row, by the words of the table and with no thought of speed: predecessors are counted
//! over all anodes, every chain is followed on its own, owners are counted block by block. Fields are read from
//! the bytes each time they are asked for. It shares no code with the linear check. In [`taking`] and [`giving`] the same
//! for what a change takes and gives back, on the lists of [`lists`], and in [`safe`] for the safe changes.

pub mod giving;
pub mod lists;
pub mod safe;
pub mod taking;

/// The check by the words: the same answer and the same tables as [`super::check`].
pub fn check(image: &[u8], blocks: &mut [u16], anodes: &mut [u16]) -> u32 {
    if !image.len().is_multiple_of(512) || image.len() < 5 * 512 || image.len() > 65_535 * 512 {
        return 1;
    }
    let disk = Disk { image, n: image.len() / 512 };
    if blocks.len() < disk.n || anodes.len() < 3_444 {
        return 2;
    }
    if disk.row_3() {
        return 3;
    }
    if disk.row_4() {
        return 4;
    }
    blocks[..disk.n].fill(0);
    anodes[..3_444].fill(0);
    if disk.row_5() {
        return 5;
    }
    if disk.row_6() {
        return 6;
    }
    let chart = Chart::of(disk);
    let answer = chart.rows_7_to_17();
    if answer == 0 {
        blocks[..disk.n].iter_mut().enumerate().for_each(|(b, owner)| *owner = chart.owner(b));
        anodes[..3_444].iter_mut().enumerate().for_each(|(a, head)| *head = chart.head(a));
    }
    answer
}

/// The image, field by field.
#[derive(Clone, Copy)]
struct Disk<'a> {
    image: &'a [u8],
    n: usize,
}

impl Disk<'_> {
    fn bytes(&self, block: usize, at: usize, length: usize) -> &[u8] {
        &self.image[block * 512 + at..block * 512 + at + length]
    }

    fn byte(&self, block: usize, at: usize) -> usize {
        usize::from(self.image[block * 512 + at])
    }

    fn number(&self, block: usize, at: usize) -> usize {
        self.byte(block, at) * 256 + self.byte(block, at + 1)
    }

    fn slot(&self, slot: usize) -> usize {
        self.number(2, 96 + 2 * slot)
    }

    fn last_reserved(&self) -> usize {
        self.number(2, 54)
    }

    fn exists(&self, a: usize) -> bool {
        a < 3_444 && self.slot(a / 82) != 0
    }

    fn field(&self, a: usize, field: usize) -> usize {
        self.number(self.slot(a / 82), 16 + (a % 82) * 6 + field * 2)
    }

    fn count(&self, a: usize) -> usize {
        self.field(a, 0)
    }

    fn block(&self, a: usize) -> usize {
        self.field(a, 1)
    }

    fn next(&self, a: usize) -> usize {
        self.field(a, 2)
    }

    fn free(&self, a: usize) -> bool {
        self.exists(a) && self.count(a) == 0 && self.block(a) == 0 && self.next(a) == 0
    }

    fn in_use(&self, a: usize) -> bool {
        self.exists(a) && !self.free(a)
    }

    fn is_anode_block(&self, b: usize) -> bool {
        (0..42).any(|slot| self.slot(slot) == b)
    }

    fn row_3(&self) -> bool {
        self.bytes(2, 0, 4) != [0x50, 0x46, 0x53, 0x00]
    }

    fn row_4(&self) -> bool {
        let last = self.last_reserved();
        let name = self.byte(2, 20);
        self.number(2, 52) != 0 || last < 2 || last >= self.n || name == 0 || name > 31
    }

    fn row_5(&self) -> bool {
        self.slot(0) == 0
            || (0..42).filter(|&slot| self.slot(slot) != 0).any(|slot| {
                let b = self.slot(slot);
                b < 3 || b >= self.n || self.bytes(b, 0, 2) != *b"AB" || self.number(b, 10) != slot
            })
    }

    fn row_6(&self) -> bool {
        (self.count(0), self.block(0), self.next(0)) != (0, 65_535, 0)
            || self.count(1) != 0
            || self.block(1) != 65_535
            || self.free(2)
            || self.free(5)
    }
}

/// The image with the list of its anodes in use (0 among them) and the predecessors of every anode.
struct Chart<'a> {
    disk: Disk<'a>,
    in_use: Vec<usize>,
    predecessors: Vec<Vec<usize>>,
}

impl<'a> Chart<'a> {
    /// Looks for the predecessors of each anode among all anodes in use.
    fn of(disk: Disk<'a>) -> Self {
        let in_use: Vec<usize> = (0..3_444).filter(|&a| disk.in_use(a)).collect();
        let nexts: Vec<usize> = in_use.iter().map(|&p| disk.next(p)).collect();
        let mut predecessors = Vec::new();
        for a in 0..3_444 {
            let before = (0..in_use.len()).filter(|&place| nexts[place] != 0 && nexts[place] == a);
            predecessors.push(before.map(|place| in_use[place]).collect());
        }
        Chart { disk, in_use, predecessors }
    }

    /// Does anode `a`, in use and not 0, own block `b`?
    fn owns(&self, a: usize, b: usize) -> bool {
        a != 0 && b >= self.disk.block(a) && b < self.disk.block(a) + self.disk.count(a)
    }

    /// The anodes of the chain from `a`, or nothing if it never ends.
    fn chain(&self, a: usize) -> Option<Vec<usize>> {
        let mut chain = vec![a];
        let mut last = a;
        while self.disk.next(last) != 0 {
            last = self.disk.next(last);
            chain.push(last);
            if chain.len() > 3_444 {
                return None;
            }
        }
        Some(chain)
    }

    fn head(&self, a: usize) -> u16 {
        if a == 0 || !self.disk.in_use(a) {
            return 0;
        }
        let mut head = a;
        while let Some(&before) = self.predecessors[head].first() {
            head = before;
        }
        head as u16
    }

    fn owner(&self, b: usize) -> u16 {
        if b <= 2 {
            return 65_535;
        }
        if self.disk.is_anode_block(b) {
            return 65_534;
        }
        self.in_use.iter().find(|&&a| self.owns(a, b)).map_or(0, |&a| self.head(a))
    }

    fn rows_7_to_17(&self) -> u32 {
        if self.row_7() {
            7
        } else if self.row_8() {
            8
        } else if self.row_9() {
            9
        } else if self.row_10() {
            10
        } else if self.row_11() {
            11
        } else {
            self.rows_12_to_17()
        }
    }

    fn row_7(&self) -> bool {
        let disk = &self.disk;
        let half_cleared =
            |a| disk.exists(a) && disk.block(a) == 0 && (disk.count(a) != 0 || disk.next(a) != 0);
        let wrong = |a| {
            let past = disk.count(a) > 0 && disk.block(a) + disk.count(a) > disk.n;
            let lost = disk.next(a) != 0 && !disk.in_use(disk.next(a));
            past || lost
        };
        (0..3_444).any(half_cleared) || self.in_use.iter().any(|&a| a != 0 && wrong(a))
    }

    fn row_8(&self) -> bool {
        self.in_use.iter().any(|&a| {
            let before = self.predecessors[a].len();
            before >= 2 || self.chain(a).is_none() || (matches!(a, 1 | 3 | 4 | 5) && before > 0)
        })
    }

    fn row_9(&self) -> bool {
        let list = self.chain(1).unwrap_or_default();
        let Some(place) = list.iter().position(|&a| a == 2) else {
            return true;
        };
        let last = self.disk.last_reserved();
        let upper_wrong = list[1..place].iter().any(|&a| (0..=last).any(|b| self.owns(a, b)));
        let lower_wrong = list[place..].iter().any(|&a| (last + 1..self.disk.n).any(|b| self.owns(a, b)));
        upper_wrong || lower_wrong
    }

    fn owner_count(&self, b: usize) -> usize {
        let system = usize::from(b <= 2 || self.disk.is_anode_block(b));
        system + self.in_use.iter().filter(|&&a| self.owns(a, b)).count()
    }

    fn row_10(&self) -> bool {
        (0..self.disk.n).any(|b| self.owner_count(b) >= 2)
    }

    fn row_11(&self) -> bool {
        (0..self.disk.n).any(|b| self.owner_count(b) == 0)
    }

    fn rows_12_to_17(&self) -> u32 {
        let mut named = Vec::new();
        // Directories met so far, with their parents; the root has none.
        let mut directories: Vec<(usize, Option<usize>)> = vec![(5, None)];
        let mut turn = 0;
        while turn < directories.len() {
            let (directory, parent) = directories[turn];
            let mut earlier = Vec::new();
            for a in self.chain(directory).unwrap_or_default() {
                if self.disk.count(a) != 1 || self.badly_headed(self.disk.block(a), directory, parent) {
                    return 12;
                }
                let fault = self.meet_entries(
                    self.disk.block(a),
                    directory,
                    &mut earlier,
                    &mut named,
                    &mut directories,
                );
                if fault != 0 {
                    return fault;
                }
            }
            turn += 1;
        }
        let unnamed = |&a: &usize| a >= 6 && self.predecessors[a].is_empty() && !named.contains(&a);
        match self.in_use.iter().any(unnamed) {
            true => 16,
            false => 0,
        }
    }

    fn badly_headed(&self, b: usize, directory: usize, parent: Option<usize>) -> bool {
        let wrong_parent = parent.is_some_and(|parent| self.disk.number(b, 14) != parent);
        self.disk.bytes(b, 0, 2) != *b"DB" || self.disk.number(b, 12) != directory || wrong_parent
    }

    fn meet_entries(
        &self,
        b: usize,
        directory: usize,
        earlier: &mut Vec<(usize, usize)>,
        named: &mut Vec<usize>,
        directories: &mut Vec<(usize, Option<usize>)>,
    ) -> u32 {
        let disk = &self.disk;
        let mut at = 16;
        while disk.byte(b, at) != 0 {
            if self.breaks_rules(b, at) {
                return 12;
            }
            if earlier.iter().any(|&entry| self.alike(entry, (b, at))) {
                return 17;
            }
            earlier.push((b, at));
            let a = disk.number(b, at + 2);
            if a < 6 || !disk.in_use(a) || !self.predecessors[a].is_empty() {
                return 13;
            }
            if named.contains(&a) {
                return 14;
            }
            named.push(a);
            if disk.byte(b, at + 1) == 2 {
                directories.push((a, Some(directory)));
            } else if self.wrong_size(a, disk.number(b, at + 4) * 65_536 + disk.number(b, at + 6)) {
                return 15;
            }
            at += disk.byte(b, at);
        }
        0
    }

    /// Does the entry at byte `at` break the entry rules, or leave no room for the end mark?
    fn breaks_rules(&self, b: usize, at: usize) -> bool {
        let disk = &self.disk;
        let length = disk.byte(b, at);
        // The end mark stands in the block, behind the entry; the shortest entry has 18 bytes.
        if at + length > 511 || length < 18 {
            return true;
        }
        let kind = disk.byte(b, at + 1);
        let name = disk.byte(b, at + 15);
        if (kind != 253 && kind != 2) || name == 0 || name > 107 || 17 + name > length {
            return true;
        }
        let comment = disk.byte(b, at + 16 + name);
        let exact = 17 + name + comment;
        let rounded = if exact % 2 == 1 { exact + 1 } else { exact };
        let forbidden = [0, b':', b'/'];
        comment > 79
            || length != rounded
            || disk.bytes(b, at + 16, name).iter().any(|byte| forbidden.contains(byte))
    }

    /// Do two entries, each told by its block and byte, have one name, where a letter of the alphabet is the same as its
    /// capital?
    fn alike(&self, one: (usize, usize), other: (usize, usize)) -> bool {
        let alphabet = *b"ABCDEFGHIJKLMNOPQRSTUVWXYZabcdefghijklmnopqrstuvwxyz";
        let letter =
            |byte| alphabet.iter().position(|&letter| usize::from(letter) == byte).map(|place| place % 26);
        let name = |(b, at): (usize, usize), place: usize| self.disk.byte(b, at + 16 + place);
        let length = |(b, at): (usize, usize)| self.disk.byte(b, at + 15);
        length(one) == length(other)
            && (0..length(one)).all(|place| {
                let (one, other) = (name(one, place), name(other, place));
                one == other || (letter(one).is_some() && letter(one) == letter(other))
            })
    }

    fn wrong_size(&self, a: usize, size: usize) -> bool {
        let held: usize = self.chain(a).unwrap_or_default().into_iter().map(|a| self.disk.count(a)).sum();
        // As many blocks as are needed, and not one more.
        let enough = held * 512 >= size;
        let too_many = held > 0 && (held - 1) * 512 >= size;
        !enough || too_many
    }
}
