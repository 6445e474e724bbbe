//! The chains of a shaped disk: its space cut into extents and dealt to the free list, the files, and 3 and 4.

use super::recipe::{Deal, Recipe};
use crate::rng::Rng;

/// An extent; one without blocks is an empty anode with any start but 0.
#[derive(Clone, Copy, Debug)]
pub(super) struct Extent {
    pub start: u16,
    pub count: u16,
}

/// The chains of a disk, as extents.
#[derive(Clone, Debug)]
pub(super) struct Chains {
    pub upper: Vec<Extent>,
    pub lower: Vec<Extent>,
    pub to_be_freed: Vec<Extent>,
    pub bad: Vec<Extent>,
    pub files: Vec<Vec<Extent>>,
}

impl Chains {
    /// The anodes from 6 up that these chains need; 2, 3 and 4 hold one extent each.
    pub fn anodes(&self) -> usize {
        let files: usize = self.files.iter().map(Vec::len).sum();
        self.upper.len()
            + self.lower.len().saturating_sub(1)
            + self.to_be_freed.len().saturating_sub(1)
            + self.bad.len().saturating_sub(1)
            + files
    }
}

/// Cuts and deals the space, with fewer cuts if there are not anodes enough; nothing if it does not fit uncut.
pub(super) fn draw_chains(
    recipe: &Recipe,
    intervals: &[Extent],
    files: usize,
    anodes: usize,
    rng: &mut Rng,
) -> Option<Chains> {
    let mut cuts = recipe.cuts;
    loop {
        let mut chains = deal(&cut(intervals, cuts, rng), recipe, files, rng);
        if recipe.scattered {
            scatter(&mut chains, rng);
        }
        complete(&mut chains, rng);
        if chains.anodes() <= anodes {
            return Some(chains);
        }
        if cuts == 0 {
            return None;
        }
        cuts = cuts * 3 / 4;
    }
}

/// Cuts runs in two as often as asked, or as they can be cut.
fn cut(intervals: &[Extent], cuts: usize, rng: &mut Rng) -> Vec<Extent> {
    let mut places: Vec<u16> = Vec::new();
    for run in intervals {
        places.extend(run.start + 1..run.start + run.count);
    }
    rng.shuffle(&mut places);
    places.truncate(cuts);
    places.sort_unstable();
    let mut runs = Vec::new();
    let mut places = places.into_iter().peekable();
    for &interval in intervals {
        let mut run = interval;
        while let Some(place) = places.next_if(|&place| place < run.start + run.count) {
            let count = place - run.start;
            runs.push(Extent { start: run.start, count });
            run = Extent { start: place, count: run.count - count };
        }
        runs.push(run);
    }
    runs
}

/// Deals runs to the chains.
fn deal(runs: &[Extent], recipe: &Recipe, files: usize, rng: &mut Rng) -> Chains {
    let mut chains = Chains {
        upper: Vec::new(),
        lower: Vec::new(),
        to_be_freed: Vec::new(),
        bad: Vec::new(),
        files: vec![Vec::new(); files],
    };
    let mut turn = 0;
    for &run in runs {
        if rng.percent(recipe.special_percent) {
            let chain = if rng.percent(50) { &mut chains.to_be_freed } else { &mut chains.bad };
            chain.push(run);
        } else if files == 0 || rng.percent(recipe.free_percent) {
            deal_free(&mut chains, run, recipe.last_reserved);
        } else {
            let file = if recipe.deal == Deal::Round { turn % files } else { rng.below(files) };
            chains.files[file].push(run);
            turn += 1;
        }
    }
    chains
}

/// Puts a run on its side of the free list, cutting it at last reserved.
fn deal_free(chains: &mut Chains, run: Extent, last_reserved: u16) {
    let below = (last_reserved + 1).saturating_sub(run.start).min(run.count);
    if below > 0 {
        chains.lower.push(Extent { start: run.start, count: below });
    }
    if below < run.count {
        chains.upper.push(Extent { start: run.start + below, count: run.count - below });
    }
}

/// Puts the extents of each chain in any order.
fn scatter(chains: &mut Chains, rng: &mut Rng) {
    let single = [&mut chains.upper, &mut chains.lower, &mut chains.to_be_freed, &mut chains.bad];
    for chain in single.into_iter().chain(&mut chains.files) {
        rng.shuffle(chain);
    }
}

/// An extent without blocks: its block field is anything but 0.
fn empty(rng: &mut Rng) -> Extent {
    let start = if rng.percent(50) { 65_535 } else { rng.within16(1..=65_535) };
    Extent { start, count: 0 }
}

/// Gives an empty anode to the chains that must have one, and now and then to those of 3 and 4.
fn complete(chains: &mut Chains, rng: &mut Rng) {
    for chain in std::iter::once(&mut chains.lower).chain(&mut chains.files) {
        if chain.is_empty() {
            chain.push(empty(rng));
        }
    }
    for chain in [&mut chains.to_be_freed, &mut chains.bad] {
        if chain.is_empty() && rng.percent(30) {
            chain.push(empty(rng));
        }
    }
}

/// Hangs empty anodes on the chain of 4 until the chains have so many anodes.
pub(super) fn hang(chains: &mut Chains, anodes: usize, rng: &mut Rng) {
    while chains.anodes() < anodes {
        chains.bad.push(empty(rng));
    }
}

/// Strews empty anodes into the chains, each costing one anode.
pub(super) fn strew(chains: &mut Chains, empties: usize, rng: &mut Rng) {
    for _ in 0..empties {
        let chain = match rng.below(8) {
            0 | 1 => &mut chains.upper,
            2 | 3 => &mut chains.lower,
            4 if !chains.to_be_freed.is_empty() => &mut chains.to_be_freed,
            5 if !chains.bad.is_empty() => &mut chains.bad,
            _ if !chains.files.is_empty() => {
                let file = rng.below(chains.files.len());
                &mut chains.files[file]
            }
            _ => &mut chains.lower,
        };
        let place = rng.within(0..=chain.len());
        chain.insert(place, empty(rng));
    }
}
