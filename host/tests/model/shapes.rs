//! The shapes are what they are there for.

use std::collections::BTreeMap;

use ovenknit_host::calls::ROOT;
use ovenknit_host::disk::{Disk, Kind, New};
use ovenknit_host::model::layout::{self, Anode, AnodeTable, ANODES};
use ovenknit_host::model::{self, Model};
use ovenknit_host::names::{first_alike, folded, is_near};
use ovenknit_host::rng::{seeded, Rng};
use ovenknit_host::shapes::{
    disk_blocks, grown_in_turn, no_free_anode, one_free_anode, shaped, Recipe, Shaped, LONG_FILE,
};
use ovenknit_host::tree::Directory;

/// A count of what a few hundred shapes have.
#[test]
fn shapes_have_what_format_never_makes() {
    let mut met: BTreeMap<&str, usize> = BTreeMap::new();
    let mut note = |what, there: bool| *met.entry(what).or_default() += usize::from(there);
    for mut case in seeded("shapes_have_what_format_never_makes", 0..400) {
        let rng = &mut case.rng;
        let blocks = disk_blocks(300, rng);
        let Shaped { image, tree } = shaped(&Recipe::random(blocks, rng), rng);
        let slots = layout::slots(&image);
        let table = AnodeTable::read(&image);
        let last_reserved = layout::last_reserved(&image);
        let list: Vec<(u16, Anode)> = table.chain(1).skip(1).collect();
        let two = list.iter().position(|&(number, _)| number == 2).unwrap();
        let empty = |(_, anode): &(u16, Anode)| anode.count == 0;
        let nodes: Vec<_> = tree.directories.values().flat_map(|d| d.nodes()).collect();
        let file_chains: Vec<Vec<(u16, Anode)>> = nodes
            .iter()
            .filter(|node| node.entry.kind == Kind::File)
            .map(|node| table.chain(node.entry.anode).collect())
            .collect();
        let crosses = |&(_, anode): &(u16, Anode)| {
            anode.count > 0 && anode.block <= last_reserved && anode.end() > usize::from(last_reserved) + 1
        };
        let used: Vec<usize> = (0..42).filter(|&slot| slots[slot] != 0).collect();
        let names = |directory: &Directory| {
            directory.nodes().map(|node| node.entry.name.clone()).collect::<Vec<Vec<u8>>>()
        };
        let by_directory: Vec<Vec<Vec<u8>>> = tree.directories.values().map(names).collect();
        for names in &by_directory {
            assert_eq!(first_alike(names.iter().map(Vec::as_slice)), None, "names of a directory are apart");
        }
        let mut all = by_directory.concat();
        all.sort_by_key(|name| (folded(name), name.clone()));
        let alike = all.windows(2).any(|pair| pair[0] != pair[1] && folded(&pair[0]) == folded(&pair[1]));
        let nearly = by_directory
            .iter()
            .any(|names| names.iter().any(|one| names.iter().any(|other| is_near(one, other))));
        note("empty anode in the upper free list", list[..two].iter().any(empty));
        note("empty anode 2", empty(&list[two]));
        note("empty anode in the lower free list", list[two + 1..].iter().any(empty));
        note("empty anode in a file", file_chains.iter().any(|c| c.len() > 1 && c.iter().any(empty)));
        note("empty head before blocks", file_chains.iter().any(|c| empty(&c[0]) && !c.iter().all(empty)));
        note("file extent across last reserved", file_chains.iter().flatten().any(crosses));
        note("file of many anodes", file_chains.iter().any(|c| c.len() > 4));
        note("3 with blocks", table.chain(3).any(|(_, anode)| anode.count > 0));
        note("4 with blocks", table.chain(4).any(|(_, anode)| anode.count > 0));
        note("chain of 3 with an empty anode", table.chain(3).any(|a| empty(&a)));
        note("3 free", !table.in_use(3));
        note("hole in the slots", used.windows(2).any(|pair| pair[1] != pair[0] + 1));
        note("slots out of order", used.windows(2).any(|pair| slots[pair[1]] < slots[pair[0]]));
        note("anode block above last reserved", slots.iter().any(|&number| number > last_reserved));
        note("directory of several blocks", tree.directories.values().any(|d| d.blocks.len() > 1));
        note(
            "empty directory block",
            tree.directories.values().any(|d| d.blocks.len() > 1 && d.blocks.iter().any(Vec::is_empty)),
        );
        note(
            "nested directory",
            tree.directories.iter().any(|(&head, directory)| {
                head != ROOT && directory.nodes().any(|node| node.entry.kind == Kind::Directory)
            }),
        );
        note("name that is alike in another directory", alike);
        note("names of a directory that are nearly alike", nearly);
        note("no free anode", table.existing().all(|number| number < 6 || table[number].in_use()));
        note("no free block", list.iter().all(empty));
    }
    for (what, count) in met {
        println!("{count:4} of 400 shapes: {what}");
        assert!(count > 0, "no shape has: {what}");
    }
}

#[test]
fn the_disks_of_the_bench_are_what_they_say() {
    let rng = &mut Rng::new(1);
    let (mut blocks, mut anodes, mut fields) = (vec![0; 65_535], vec![0; ANODES], [0; 4]);
    let image = shaped(&Recipe::small_files(65_535), rng).image;
    assert_eq!(model::summary(&image, &mut blocks, &mut anodes, &mut fields), 0);
    assert_eq!(fields, [65_535, 0, 3_000, 121]);
    let Shaped { image, tree } = shaped(&Recipe::many_names(65_535), rng);
    assert_eq!(model::summary(&image, &mut blocks, &mut anodes, &mut fields), 0);
    assert_eq!((fields[2], fields[3], tree.directories[&ROOT].nodes().count()), (3_250, 1, 3_250));
    let image = shaped(&Recipe::fragmented(65_535), rng).image;
    assert_eq!(model::summary(&image, &mut blocks, &mut anodes, &mut fields), 0);
    assert!(anodes[1..].iter().all(|&head| head != 0), "an anode is free");
    let table = AnodeTable::read(&image);
    let pieces = table.existing().filter(|&number| table[number].count > 0).count();
    assert!(pieces > 2_500, "only {pieces} pieces");
}

#[test]
fn the_disks_with_few_anodes_are_what_they_say() {
    for (image, used, free) in
        [(one_free_anode(), vec![0, 41], vec![3_443]), (no_free_anode(), vec![0], vec![])]
    {
        let (mut blocks, mut anodes) = (vec![0; 1_760], vec![0; ANODES]);
        assert_eq!(model::check(&image, &mut blocks, &mut anodes), 0);
        let table = AnodeTable::read(&image);
        let slots: Vec<usize> = layout::used_slots(table.slots()).map(|(slot, _)| slot).collect();
        let free_anodes: Vec<u16> =
            table.existing().filter(|&number| number >= 6 && !table.in_use(number)).collect();
        // A file takes the anode that is free, or the first one of a new block.
        let head = free.first().copied().unwrap_or(82);
        assert_eq!((slots, free_anodes), (used, free));
        let mut disk = Disk::<Model>::new(image);
        disk.make(ROOT, &New::file(b"f")).expect("it is made");
        assert_eq!(disk.find(ROOT, b"f").map(|entry| entry.anode), Ok(head));
    }
}

#[test]
fn the_long_file_of_the_bench_is_what_it_says() {
    let mut disk = Disk::<Model>::new(grown_in_turn());
    let head = disk.find(ROOT, LONG_FILE).expect("the file is there").anode;
    let table = AnodeTable::read(disk.image());
    let extents: Vec<Anode> = table.chain(head).map(|(_, anode)| anode).collect();
    assert_eq!((extents.len(), table.chain_blocks(head).count()), (1_500, 62_000));
    assert!(extents.windows(2).all(|pair| pair[0].end() < usize::from(pair[1].block)), "two extents touch");
    // The last upper anode of the free list touches none of them either: the other file's last block is between.
    let last = table.chain(1).find(|(_, anode)| anode.next == 2).expect("2 is on the free list").1;
    assert_eq!((last.count, last.end()), (34, 65_535));
    assert_eq!(extents[1_499].end() + 1, usize::from(last.block));
}
