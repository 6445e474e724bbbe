//! The model's differences of two disks against those of their trees in memory.

use std::collections::{BTreeMap, HashMap, VecDeque};

use ovenknit_host::calls::ROOT;
use ovenknit_host::differences::{COMMENT, NAME, PROTECTION, SIZE, STAMPS, TYPE};
use ovenknit_host::disk::Kind;
use ovenknit_host::met::DifferencesMet;
use ovenknit_host::model::Model;
use ovenknit_host::names::folded;
use ovenknit_host::pairs::{place_of, Numbers, Pair, Side, Twin};
use ovenknit_host::rng::seeded;
use ovenknit_host::shapes::Shaped;
use ovenknit_host::starts::Start;
use ovenknit_host::tree::Node;

/// A node with its path in folded names and the byte of the image where its entry begins.
struct Found<'a> {
    path: Vec<u8>,
    place: u32,
    node: &'a Node,
}

/// All nodes of a disk, breadth first.
fn walk(disk: &Shaped) -> Vec<Found<'_>> {
    let mut all = Vec::new();
    let mut waiting = VecDeque::from([(ROOT, Vec::new())]);
    while let Some((directory, path)) = waiting.pop_front() {
        for node in disk.tree.directories[&directory].nodes() {
            // No name has a slash in it.
            let path = [&path[..], b"/", &folded(&node.entry.name)].concat();
            if node.entry.kind == Kind::Directory {
                waiting.push_back((node.entry.anode, path.clone()));
            }
            let place = place_of(&disk.image, directory, &node.entry.name) as u32;
            all.push(Found { path, place, node });
        }
    }
    all
}

/// How two nodes of one path differ: fields, first byte and how many.
fn compared(one: &Node, other: &Node) -> (u32, u32, u32) {
    let (a, b) = (&one.entry, &other.entry);
    let files = a.kind == Kind::File && b.kind == Kind::File;
    let mut fields = 0;
    for (field, differs) in [
        (TYPE, a.kind != b.kind),
        (NAME, a.name != b.name),
        (COMMENT, a.comment != b.comment),
        (STAMPS, a.stamp != b.stamp),
        (PROTECTION, a.protection != b.protection),
        (SIZE, files && one.content.len() != other.content.len()),
    ] {
        fields |= if differs { field } else { 0 };
    }
    let length = if files { one.content.len().max(other.content.len()) } else { 0 };
    let places: Vec<usize> = (0..length).filter(|&at| one.content.get(at) != other.content.get(at)).collect();
    (fields, places.first().map_or(0, |&first| first as u32), places.len() as u32)
}

/// The differences of two trees.
fn expected(first: &Shaped, second: &Shaped) -> Vec<Numbers> {
    let (ones, others) = (walk(first), walk(second));
    let by_path = |all: &[Found]| -> HashMap<Vec<u8>, usize> {
        all.iter().enumerate().map(|(number, found)| (found.path.clone(), number)).collect()
    };
    let (in_first, in_second) = (by_path(&ones), by_path(&others));
    let mut all = Vec::new();
    for one in &ones {
        let Some(&number) = in_second.get(&one.path) else {
            all.push([1, one.place, 0, 0, 0, 0]);
            continue;
        };
        let (fields, byte, many) = compared(one.node, others[number].node);
        if (fields, many) != (0, 0) {
            all.push([3, one.place, others[number].place, fields, byte, many]);
        }
    }
    let only_second = others.iter().filter(|other| !in_first.contains_key(&other.path));
    all.extend(only_second.map(|other| [2, 0, other.place, 0, 0, 0]));
    all
}

#[test]
fn differences_are_those_of_the_trees() {
    let (mut met, mut same) = (DifferencesMet::default(), BTreeMap::new());
    for mut case in seeded("differences_are_those_of_the_trees", 0..200) {
        let rng = &mut case.rng;
        let first = Start::SMALL[rng.below(Start::SMALL.len())].disk(rng);
        for twin in Twin::ALL {
            let second = twin.of(&first, rng);
            let [one, other] = [&first, &second].map(|disk| Side::with_junk(disk.image.clone(), false, rng));
            let compared = Pair { first: one, second: other }.both_ways::<Model>(rng);
            let differences = compared.expect("both are accepted");
            assert_eq!(differences, expected(&first, &second), "{twin:?}");
            differences.iter().for_each(|difference| met.note(difference));
            *same.entry(twin).or_insert(0) += usize::from(differences.is_empty());
        }
    }
    println!("{:?}\nthe same: {same:?}", met.counts);
    met.assert_each(20);
    assert!(same[&Twin::Rebuilt] == 200 && same[&Twin::Changed] < 100, "{same:?}");
}
