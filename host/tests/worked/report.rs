//! The shift report (02, No. 1), by hand. D is the disk of 20 blocks with L 9 and one anode block: 1 = (0, 65535, 6),
//! 2 = (5, 5, 0), 5 = (1, 4, 0) and 6 = (10, 10, 2).

use ovenknit_host::calls::{Call, Library, FILE, ROOT, TOTALS, UNCOUNTED};

use crate::disk::Disk;

const EMPTY: [u64; TOTALS] = [0; TOTALS];

/// Count, block and next of an anode, behind its number.
type Numbered = (u16, (u16, u16, u16));

/// The five numbers of an accepted disk, and the bytes of its files.
fn counted<L: Library>(disk: &mut Disk<L>) -> ([u64; 5], u64) {
    let outcome = disk.run(Call::Report { totals: EMPTY });
    assert_eq!(outcome.answer, 0);
    let mut totals = EMPTY;
    totals[0] = 1;
    totals[18..23].copy_from_slice(&outcome.output.disk);
    totals[23] = outcome.output.totals[23];
    assert_eq!(outcome.output.totals, totals);
    (outcome.output.disk, totals[23])
}

/// D with a file of this size, whose anodes and those of the free list are as they are set. Its head is 7.
fn with_file<L: Library>(size: u32, anodes: &[Numbered]) -> Disk<L> {
    let mut disk = Disk::format(20, 9, 1);
    assert_eq!(disk.make(ROOT, FILE, b"pack"), 0);
    disk.set(anodes);
    disk.set_size(size);
    assert_eq!(disk.check(), 0);
    disk
}

fn the_longest_free_run_crosses_last_reserved<L: Library>() {
    assert_eq!(counted(&mut Disk::<L>::format(20, 9, 1)), ([15, 0, 1, 15, 0], 0));
    // Without a free block there is no run.
    assert_eq!(counted(&mut Disk::<L>::format(5, 4, 1)), ([0, 0, 1, 0, 0], 0));
}

fn runs_count_across_anodes_and_in_any_order<L: Library>() {
    // (2, 12), then (2, 10): one run, and 5 to 9 and 14 to 19 are free.
    let one = [(7, (2, 12, 8)), (8, (2, 10, 0)), (6, (6, 14, 2))];
    assert_eq!(counted(&mut with_file::<L>(2_048, &one)), ([11, 1, 1, 6, 0], 2_048));
    // (2, 12), then (2, 15): two runs, and 5 to 11 are free in one run that crosses last reserved.
    let two = [(7, (2, 12, 8)), (8, (2, 15, 0)), (6, (2, 10, 9)), (9, (1, 14, 10)), (10, (3, 17, 2))];
    assert_eq!(counted(&mut with_file::<L>(2_048, &two)), ([11, 1, 1, 7, 1], 2_048));
    // Free runs join across anodes in any order too: 14 and 15 behind 16 to 19.
    let apart = [(7, (4, 10, 0)), (6, (4, 16, 8)), (8, (2, 14, 2))];
    assert_eq!(counted(&mut with_file::<L>(2_048, &apart)), ([11, 1, 1, 6, 0], 2_048));
}

fn bytes_are_those_of_the_sizes<L: Library>() {
    let anodes = [(7, (2, 10, 0)), (6, (8, 12, 2))];
    for size in [513, 1_000, 1_024] {
        assert_eq!(counted(&mut with_file::<L>(size, &anodes)), ([13, 1, 1, 8, 0], u64::from(size)));
    }
    // A file without blocks is in no run.
    assert_eq!(counted(&mut with_file::<L>(0, &[])), ([15, 1, 1, 15, 0], 0));
}

fn a_refused_disk_adds_to_its_count_only<L: Library>() {
    let mut disk = Disk::<L>::format(20, 9, 1);
    disk.block_mut(2)[0] = 0;
    let mut totals = EMPTY;
    totals[3] = 6;
    totals[18..].copy_from_slice(&[1, 2, 3, 4, 5, 6]);
    let outcome = disk.compare(&Call::Report { totals });
    totals[3] = 7;
    assert_eq!((outcome.answer, outcome.output.totals, outcome.output.disk), (3, totals, [0; 5]));
}

fn thirty_one_comes_before_any_check<L: Library>() {
    let mut totals = EMPTY;
    totals[16] = 100_000;
    for (image, blocks, anodes) in [
        // Accepted, a table too short, no disk.
        (Disk::<L>::format(20, 9, 1).image, 20, 3_444),
        (Disk::<L>::format(20, 9, 1).image, 19, 0),
        (vec![7; 100], 0, 0),
    ] {
        let mut disk = Disk::<L>::new(image);
        (disk.blocks, disk.anodes) = (vec![0x5A5A; blocks], vec![0x5A5A; anodes]);
        let outcome = disk.compare(&Call::Report { totals });
        assert_eq!(
            (outcome.answer, outcome.output.totals, outcome.output.disk),
            (31, totals, [UNCOUNTED; 5])
        );
        assert!(disk.blocks.iter().chain(&disk.anodes).all(|&entry| entry == 0x5A5A));
    }
}

both! {
    the_longest_free_run_crosses_last_reserved,
    runs_count_across_anodes_and_in_any_order,
    bytes_are_those_of_the_sizes,
    a_refused_disk_adds_to_its_count_only,
    thirty_one_comes_before_any_check,
}
