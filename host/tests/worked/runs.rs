//! Whole runs go back (02, No. 3), by hand, on the small disks with the entry f. Where 28 is to come, the anode table cannot
//! grow (No. 6).

use ovenknit_host::calls::{Call, Library, BLOCK, DIRECTORY, FILE};
use ovenknit_host::model::layout::Anode;

use crate::disk::Disk;
use crate::small::{disk_of, full, remove, resize_to, stuck, with_spare, Numbered, EMPTIED, FREE};

/// Runs a call that must be done and leave these anodes, all others as they were, and every byte outside the anodes and the
/// root directory.
fn done<L: Library>(mut disk: Disk<L>, call: Call, anodes: &[Numbered]) {
    let (mut expected, image) = (disk.table(), disk.image.clone());
    for &(number, (count, block, next)) in anodes {
        expected[number] = Anode::new(count, block, next);
    }
    assert_eq!(disk.run(call.clone()).answer, 0, "{call:?}");
    for number in 0..82 {
        assert_eq!(disk.table()[number], expected[number], "anode {number} after {call:?}");
    }
    let others = |image: &[u8]| [image[..3 * BLOCK].to_vec(), image[5 * BLOCK..].to_vec()];
    assert!(others(&disk.image) == others(&image), "bytes changed by {call:?}");
}

/// Runs a call that must be refused with 28, since the table cannot grow. That nothing changes, `run` sees to.
fn refused<L: Library>(mut disk: Disk<L>, call: Call) {
    assert_eq!(disk.run(call.clone()).answer, 28, "{call:?}");
}

fn a_long_file_is_removed_without_a_spare_anode<L: Library>() {
    // Six extents apart from each other; 7 and 8 are on the lower side.
    let anodes = [
        (1, (0, 65_535, 2)),
        (2, (1, 5, 0)),
        (20, (1, 10, 21)),
        (21, (2, 12, 22)),
        (22, (2, 7, 23)),
        (23, (1, 15, 24)),
        (24, (1, 19, 25)),
        (25, (1, 17, 0)),
    ];
    let after = [
        (1, (0, 65_535, 25)),
        (2, (1, 5, 22)),
        (20, (1, 10, 2)),
        (21, (2, 12, 20)),
        (22, (2, 7, 0)),
        (23, (1, 15, 21)),
        (24, (1, 19, 23)),
        (25, (1, 17, 24)),
    ];
    done(full::<L>(&anodes), remove(), &after);
    // Shrunk instead, the head's run needs an anode more.
    refused(stuck::<L>(&[], &anodes), resize_to(0));
    let after = [
        (1, (0, 65_535, 25)),
        (2, (1, 5, 22)),
        (20, (1, 10, 0)),
        (21, (2, 12, 2)),
        (22, (2, 7, 0)),
        (23, (1, 15, 21)),
        (24, (1, 19, 23)),
        (25, (1, 17, 24)),
    ];
    done(full::<L>(&anodes), resize_to(1), &after);
}

/// Reading 1: last first is chain order, and empty anodes of a chain that is only shortened stay.
fn extents_go_last_first_and_empty_anodes_stay<L: Library>() {
    let free = [(1, (0, 65_535, 6)), (6, (1, 19, 2)), (2, (5, 5, 0))];
    let chain = [(20, (1, 10, 21)), (21, (1, 16, 22)), (22, (1, 13, 0))];
    let after = [(6, (1, 19, 22)), (20, (1, 10, 0)), (21, (1, 16, 2)), (22, (1, 13, 21))];
    done(full::<L>(&[&free[..], &chain].concat()), resize_to(1), &after);

    let chain =
        [(20, (1, 12, 21)), (21, (0, 300, 22)), (22, (2, 15, 23)), (23, (0, 17, 24)), (24, (0, 65_535, 0))];
    let after = [(6, (1, 19, 22)), (21, (0, 300, 23)), (22, (2, 15, 2))];
    done(full::<L>(&[&free[..], &chain].concat()), resize_to(1), &after);
    // An empty head stays as it is, and so do the others.
    let chain = [(20, (0, 77, 21)), (21, (1, 12, 22)), (22, (0, 300, 23)), (23, (2, 15, 0))];
    let after = [(6, (1, 19, 23)), (20, (0, 77, 22)), (21, (1, 12, 2)), (22, (0, 300, 0)), (23, (2, 15, 21))];
    done(full::<L>(&[&free[..], &chain].concat()), resize_to(0), &after);
}

/// Reading 1: in a removal they are zeroed after all runs have gone back, an empty head with them.
fn empty_anodes_of_a_removed_chain_are_zeroed_last<L: Library>() {
    let anodes = [
        (1, (0, 65_535, 2)),
        (2, (3, 5, 0)),
        (20, (0, 77, 21)),
        (21, (4, 8, 22)),
        (22, (0, 300, 23)),
        (23, (1, 15, 24)),
        (24, (0, 65_535, 0)),
    ];
    // 15 goes behind 1 in 23; then 10 and 11 find no anode, for 20, 22 and 24 are still in use.
    refused(stuck::<L>(&[], &anodes), remove());
    let after = [
        (1, (0, 65_535, 23)),
        (2, (5, 5, 0)),
        (20, FREE),
        (21, FREE),
        (22, FREE),
        (23, (1, 15, 50)),
        (24, FREE),
        (50, (2, 10, 2)),
    ];
    done(with_spare::<L>(&[50], &anodes), remove(), &after);
    // Without any block, all of them are only zeroed.
    let anodes = [(1, (0, 65_535, 2)), (2, (5, 5, 0)), (20, (0, 77, 21)), (21, (0, 65_535, 0))];
    done(full::<L>(&anodes), remove(), &[(20, FREE), (21, FREE)]);
}

/// Reading 2: a run is joined to the last anode of its side where they touch, and fills it where it is empty.
fn a_run_joins_or_fills_the_last_anode_of_its_side<L: Library>() {
    // 14 and 15 go back to 6, which is last above: after its end, before its start, into an empty one.
    for (six, after) in [
        ((2, 12, 2), (4, 12, 2)),
        ((2, 16, 2), (4, 14, 2)),
        ((0, 65_535, 2), (2, 14, 2)),
        ((0, 300, 2), (2, 14, 2)),
        // The block field of an empty one may touch as well; that comes to the same.
        ((0, 14, 2), (2, 14, 2)),
        ((0, 16, 2), (2, 14, 2)),
        // A run of one block.
        ((1, 16, 2), (3, 14, 2)),
    ] {
        let anodes = [(1, (0, 65_535, 6)), (6, six), (2, (5, 5, 0)), (20, (1, 10, 21)), (21, (2, 14, 0))];
        done(full::<L>(&anodes), resize_to(1), &[(6, after), (20, (1, 10, 0)), (21, FREE)]);
    }
    // 7 and 8 go back to the last one below: 2 itself, or one behind it.
    for (two, after) in [((2, 5, 0), (4, 5, 0)), ((1, 9, 0), (3, 7, 0)), ((0, 65_535, 0), (2, 7, 0))] {
        let anodes = [(1, (0, 65_535, 2)), (2, two), (20, (1, 10, 21)), (21, (2, 7, 0))];
        done(full::<L>(&anodes), resize_to(1), &[(2, after), (20, (1, 10, 0)), (21, FREE)]);
    }
    for (six, after) in [((1, 6, 0), (3, 6, 0)), ((1, 9, 0), (3, 7, 0)), ((0, 2, 0), (2, 7, 0))] {
        let anodes = [(1, (0, 65_535, 2)), (2, (1, 5, 6)), (6, six), (20, (1, 10, 21)), (21, (2, 7, 0))];
        done(full::<L>(&anodes), resize_to(1), &[(6, after), (20, (1, 10, 0)), (21, FREE)]);
    }
}

/// Reading 2: no other touching anode and no other empty one is looked for, and a gap of one block is no touch.
fn only_the_last_anode_of_the_side_is_looked_at<L: Library>() {
    for (six, seven) in [((2, 12, 7), (1, 18, 2)), ((0, 300, 7), (1, 18, 2)), ((2, 16, 7), (2, 11, 2))] {
        let anodes =
            [(1, (0, 65_535, 6)), (6, six), (7, seven), (2, (5, 5, 0)), (20, (1, 10, 21)), (21, (2, 14, 0))];
        let after = [(7, (seven.0, seven.1, 21)), (20, (1, 10, 0)), (21, (2, 14, 2))];
        done(full::<L>(&anodes), resize_to(1), &after);
    }
    let anodes = [
        (1, (0, 65_535, 2)),
        (2, (0, 65_535, 6)),
        (6, (1, 9, 7)),
        (7, (1, 5, 0)),
        (20, (1, 10, 21)),
        (21, (2, 7, 0)),
    ];
    done(full::<L>(&anodes), resize_to(1), &[(7, (1, 5, 21)), (20, (1, 10, 0)), (21, (2, 7, 0))]);
}

/// Reading 2: the last anode of the run's own side. What touches across last reserved is not joined.
fn no_run_joins_across_last_reserved<L: Library>() {
    let anodes = [(1, (0, 65_535, 2)), (2, (5, 5, 0)), (20, (1, 13, 21)), (21, (2, 10, 0))];
    let after = [(1, (0, 65_535, 21)), (20, (1, 13, 0)), (21, (2, 10, 2))];
    done(full::<L>(&anodes), resize_to(1), &after);
    let anodes = [(1, (0, 65_535, 6)), (6, (2, 10, 2)), (2, (1, 5, 0)), (20, (1, 13, 21)), (21, (2, 8, 0))];
    done(full::<L>(&anodes), resize_to(1), &[(2, (1, 5, 21)), (20, (1, 13, 0)), (21, (2, 8, 0))]);
    // An empty anode of the other side is not filled either.
    let anodes = [(1, (0, 65_535, 6)), (6, (0, 300, 2)), (2, (1, 5, 0)), (20, (1, 13, 21)), (21, (2, 7, 0))];
    done(full::<L>(&anodes), resize_to(1), &[(2, (1, 5, 21)), (20, (1, 13, 0)), (21, (2, 7, 0))]);
    let anodes = [(1, (0, 65_535, 2)), (2, (0, 65_535, 0)), (20, (1, 13, 21)), (21, (2, 10, 0))];
    done(full::<L>(&anodes), resize_to(1), &[(1, (0, 65_535, 21)), (20, (1, 13, 0)), (21, (2, 10, 2))]);
}

/// Reading 3: a whole extent that is exactly what a resize gives back goes with its anode, a cut piece with the lowest free
/// one.
fn a_whole_extent_takes_its_anode_along_and_a_cut_piece_needs_one<L: Library>() {
    let anodes = [(1, (0, 65_535, 2)), (2, (5, 5, 0)), (20, (2, 10, 21)), (21, (3, 14, 0))];
    let after = [(1, (0, 65_535, 21)), (20, (2, 10, 0)), (21, (3, 14, 2))];
    done(full::<L>(&anodes), resize_to(2), &after);
    // 21 itself goes, not the lower 7, which is free.
    done(with_spare::<L>(&[7], &anodes), resize_to(2), &after);
    for blocks in [1, 3, 4] {
        refused(stuck::<L>(&[], &anodes), resize_to(blocks));
    }
    let spare = || with_spare::<L>(&[50, 60], &anodes);
    let after = [(1, (0, 65_535, 50)), (21, (2, 14, 0)), (50, (1, 16, 2))];
    done(spare(), resize_to(4), &after);
    let after = [(1, (0, 65_535, 50)), (21, (1, 14, 0)), (50, (2, 15, 2))];
    done(spare(), resize_to(3), &after);
    let after = [(1, (0, 65_535, 21)), (20, (1, 10, 0)), (21, (3, 14, 50)), (50, (1, 11, 2))];
    done(spare(), resize_to(1), &after);
    // A cut piece joins and fills like any run.
    for (six, after) in [((3, 17, 2), (5, 15, 2)), ((0, 300, 2), (2, 15, 2))] {
        let anodes = [(1, (0, 65_535, 6)), (6, six), (2, (5, 5, 0)), (20, (5, 12, 0))];
        done(full::<L>(&anodes), resize_to(3), &[(6, after), (20, (3, 12, 0))]);
    }
}

/// Reading 3: a head that stays is emptied, and its run needs the lowest free anode; in a removal the head itself moves.
fn the_head_stays_in_a_resize_and_moves_in_a_removal<L: Library>() {
    let anodes = [(1, (0, 65_535, 2)), (2, (5, 5, 0)), (20, (2, 12, 0))];
    refused(stuck::<L>(&[], &anodes), resize_to(0));
    let after = [(1, (0, 65_535, 50)), (20, EMPTIED), (50, (2, 12, 2))];
    done(with_spare::<L>(&[50, 60], &anodes), resize_to(0), &after);
    done(full::<L>(&anodes), remove(), &[(1, (0, 65_535, 20)), (20, (2, 12, 2))]);
    // 7 is free and lower, but it is the head that moves.
    let after = [(1, (0, 65_535, 20)), (20, (2, 12, 2))];
    done(with_spare::<L>(&[7], &anodes), remove(), &after);
    // The head's next is the free list's now; what came behind it is zeroed.
    let anodes = [(1, (0, 65_535, 2)), (2, (1, 5, 0)), (20, (2, 7, 21)), (21, (0, 300, 0))];
    done(full::<L>(&anodes), remove(), &[(2, (1, 5, 20)), (20, (2, 7, 0)), (21, FREE)]);
    // Where the run joins or fills, no anode is needed, and a head that moves is zeroed.
    for (six, after) in [((1, 14, 2), (3, 12, 2)), ((1, 11, 2), (3, 11, 2)), ((0, 300, 2), (2, 12, 2))] {
        let anodes = [(1, (0, 65_535, 6)), (6, six), (2, (5, 5, 0)), (20, (2, 12, 21)), (21, (0, 300, 0))];
        done(full::<L>(&anodes), resize_to(0), &[(6, after), (20, (0, 65_535, 21))]);
        done(full::<L>(&anodes), remove(), &[(6, after), (20, FREE), (21, FREE)]);
    }
}

/// Reading 4: while the upper part looks for an anode, the extent's own is still in use, though it is zeroed then.
fn the_upper_part_of_a_crossing_extent_needs_an_anode<L: Library>() {
    let anodes = [(1, (0, 65_535, 2)), (2, (3, 5, 0)), (20, (4, 8, 0))];
    refused(stuck::<L>(&[], &anodes), remove());
    let after = [(1, (0, 65_535, 50)), (2, (5, 5, 0)), (20, FREE), (50, (2, 10, 2))];
    done(with_spare::<L>(&[50], &anodes), remove(), &after);
    // With none to spare it goes where the upper part joins or fills; the anode serves the lower part, or is zeroed.
    for (six, after) in [((2, 12, 2), (4, 10, 2)), ((0, 300, 2), (2, 10, 2))] {
        let mut anodes = [(1, (0, 65_535, 6)), (2, (3, 5, 0)), (6, six), (20, (4, 8, 0))];
        done(full::<L>(&anodes), remove(), &[(2, (5, 5, 0)), (6, after), (20, FREE)]);
        anodes[1].1 = (2, 5, 0);
        done(full::<L>(&anodes), remove(), &[(2, (2, 5, 20)), (6, after), (20, (2, 8, 0))]);
        anodes[1].1 = (0, 65_535, 0);
        done(full::<L>(&anodes), remove(), &[(2, (2, 8, 0)), (6, after), (20, FREE)]);
    }
    // The same for an extent that is not the head's, in a resize.
    let anodes =
        [(1, (0, 65_535, 2)), (2, (2, 5, 0)), (20, (1, 13, 21)), (21, (4, 8, 22)), (22, (0, 300, 0))];
    refused(stuck::<L>(&[], &anodes), resize_to(1));
    let after = [(1, (0, 65_535, 50)), (2, (2, 5, 21)), (20, (1, 13, 22)), (21, (2, 8, 0)), (50, (2, 10, 2))];
    done(with_spare::<L>(&[50, 60], &anodes), resize_to(1), &after);
}

/// Reading 4: a cut piece or a kept head's run that crosses needs up to two anodes, the upper part's first.
fn a_run_without_an_anode_that_crosses_needs_two<L: Library>() {
    let anodes = [(1, (0, 65_535, 2)), (2, (1, 5, 0)), (20, (5, 7, 0))];
    for blocks in [0, 1] {
        refused(stuck::<L>(&[], &anodes), resize_to(blocks));
        refused(stuck::<L>(&[50], &anodes), resize_to(blocks));
    }
    let spare = || with_spare::<L>(&[50, 60], &anodes);
    let free_list = [(1, (0, 65_535, 50)), (2, (1, 5, 60))];
    let after = [&free_list[..], &[(20, EMPTIED), (50, (2, 10, 2)), (60, (3, 7, 0))]].concat();
    done(spare(), resize_to(0), &after);
    let after = [&free_list[..], &[(20, (1, 7, 0)), (50, (2, 10, 2)), (60, (2, 8, 0))]].concat();
    done(spare(), resize_to(1), &after);
    let after = [&free_list[..], &[(20, (2, 7, 0)), (50, (2, 10, 2)), (60, (1, 9, 0))]].concat();
    done(spare(), resize_to(2), &after);
    // A cut at last reserved, or above it, is no crossing.
    let after = [(1, (0, 65_535, 50)), (20, (3, 7, 0)), (50, (2, 10, 2))];
    done(with_spare::<L>(&[50], &anodes), resize_to(3), &after);
    let after = [(1, (0, 65_535, 50)), (20, (4, 7, 0)), (50, (1, 11, 2))];
    done(with_spare::<L>(&[50], &anodes), resize_to(4), &after);
    // One anode is enough where one of the two joins or fills.
    let anodes = [(1, (0, 65_535, 6)), (6, (2, 12, 2)), (2, (1, 5, 0)), (20, (5, 7, 0))];
    let after = [(2, (1, 5, 50)), (6, (4, 10, 2)), (20, (1, 7, 0)), (50, (2, 8, 0))];
    refused(stuck::<L>(&[], &anodes), resize_to(1));
    done(with_spare::<L>(&[50], &anodes), resize_to(1), &after);
    let anodes = [(1, (0, 65_535, 2)), (2, (2, 5, 0)), (20, (5, 7, 0))];
    let after = [(1, (0, 65_535, 50)), (2, (5, 5, 0)), (20, EMPTIED), (50, (2, 10, 2))];
    refused(stuck::<L>(&[], &anodes), resize_to(0));
    done(with_spare::<L>(&[50], &anodes), resize_to(0), &after);
}

/// Reading 5: on 65,535 blocks the end of the last block's run is anode 1's block field, but anode 1 is never joined.
fn anode_1_is_never_joined<L: Library>() {
    let mut anodes = [(1, (0, 65_535, 2)), (2, (0, 65_535, 0)), (20, (2, 65_533, 0))];
    // No block is free, so that the table cannot grow.
    refused(disk_of::<L>(FILE, 65_535, &[], &anodes), resize_to(1));
    anodes[1].1 = (5, 5, 0);
    let disk = |spare: &[u16]| disk_of::<L>(FILE, 65_535, spare, &anodes);
    let after = [(1, (0, 65_535, 6)), (6, (1, 65_534, 2)), (20, (1, 65_533, 0))];
    done(disk(&[6, 7]), resize_to(1), &after);
    let after = [(1, (0, 65_535, 6)), (6, (2, 65_533, 2)), (20, EMPTIED)];
    done(disk(&[6, 7]), resize_to(0), &after);
    done(disk(&[]), remove(), &[(1, (0, 65_535, 20)), (20, (2, 65_533, 2))]);
}

/// Reading 6: each need is tested at its run's turn, and anodes already zeroed by the call count.
fn an_anode_zeroed_by_the_call_serves_a_later_run<L: Library>() {
    // 9 fills 2, and 11, its anode, serves the cut piece, 21.
    let anodes = [(1, (0, 65_535, 2)), (2, (0, 65_535, 0)), (20, (2, 20, 11)), (11, (1, 9, 0))];
    let after = [(1, (0, 65_535, 11)), (2, (1, 9, 0)), (11, (1, 21, 2)), (20, (1, 20, 0))];
    done(disk_of::<L>(FILE, 24, &[], &anodes), resize_to(1), &after);
    // 14 joins 6, and 21, its anode, serves the upper part of the extent before it.
    let anodes = [(1, (0, 65_535, 6)), (6, (1, 15, 2)), (2, (3, 5, 0)), (20, (4, 8, 21)), (21, (1, 14, 0))];
    let after = [(2, (5, 5, 0)), (6, (2, 14, 21)), (20, FREE), (21, (2, 10, 2))];
    done(full::<L>(&anodes), remove(), &after);
    // In the other order the need comes first.
    let anodes = [(1, (0, 65_535, 6)), (6, (1, 15, 2)), (2, (3, 5, 0)), (20, (1, 14, 21)), (21, (4, 8, 0))];
    refused(stuck::<L>(&[], &anodes), remove());
    // The lowest free anode is one that the call has zeroed, or another.
    for (spare, fresh) in [(12, 12), (30, 21)] {
        let anodes =
            [(1, (0, 65_535, 6)), (6, (1, 15, 2)), (2, (5, 5, 0)), (20, (2, 10, 21)), (21, (1, 14, 0))];
        let disk = with_spare::<L>(&[spare], &anodes);
        let mut after = vec![(6, (2, 14, fresh)), (fresh, (1, 11, 2)), (20, (1, 10, 0))];
        if fresh != 21 {
            after.push((21, FREE));
        }
        after.sort();
        done(disk, resize_to(1), &after);
    }
}

/// Reading 7: a removed directory's anodes go back like a file's.
fn a_removed_directory_goes_back_like_a_file<L: Library>() {
    // Blocks on both sides, each in an anode of its own; 15 and 16 join.
    let anodes = [
        (1, (0, 65_535, 2)),
        (2, (1, 6, 0)),
        (20, (1, 12, 21)),
        (21, (1, 16, 22)),
        (22, (1, 15, 23)),
        (23, (1, 8, 24)),
        (24, (1, 5, 0)),
    ];
    let after = [
        (1, (0, 65_535, 22)),
        (2, (2, 5, 23)),
        (20, (1, 12, 2)),
        (21, FREE),
        (22, (2, 15, 20)),
        (23, (1, 8, 0)),
        (24, FREE),
    ];
    for spare in [&[][..], &[7, 50]] {
        done(disk_of::<L>(DIRECTORY, 20, spare, &anodes), remove(), &after);
    }
}

both!(
    a_long_file_is_removed_without_a_spare_anode,
    extents_go_last_first_and_empty_anodes_stay,
    empty_anodes_of_a_removed_chain_are_zeroed_last,
    a_run_joins_or_fills_the_last_anode_of_its_side,
    only_the_last_anode_of_the_side_is_looked_at,
    no_run_joins_across_last_reserved,
    a_whole_extent_takes_its_anode_along_and_a_cut_piece_needs_one,
    the_head_stays_in_a_resize_and_moves_in_a_removal,
    the_upper_part_of_a_crossing_extent_needs_an_anode,
    a_run_without_an_anode_that_crosses_needs_two,
    anode_1_is_never_joined,
    an_anode_zeroed_by_the_call_serves_a_later_run,
    a_removed_directory_goes_back_like_a_file,
);
