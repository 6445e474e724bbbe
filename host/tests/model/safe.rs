//! Safe changes on the model against the tree in memory: what they answer, what they leave, and what is left where they are cut
//! off.

use ovenknit_host::calls::{run, tables, Call, Outcome, BLOCK_WRITE, UNREAD};
use ovenknit_host::compare::{totals, Histogram};
use ovenknit_host::cuts::{
    any_room, assert_cuts, assert_holds, assert_list, list_length, needed_blocks, worked_out_safely,
    writes_of,
};
use ovenknit_host::disk::Disk;
use ovenknit_host::histories::{every_change, follow, head_of, random_safe_call, Trend};
use ovenknit_host::met::{SAFE_DONE, SAFE_REFUSALS};
use ovenknit_host::model::layout::{slots, used_slots, Anode, AnodeTable};
use ovenknit_host::model::{self, Model};
use ovenknit_host::rng::{seeded, Rng};
use ovenknit_host::safe::Writes;
use ovenknit_host::shapes::Shaped;
use ovenknit_host::starts::Start;
use ovenknit_host::tree::Tree;

/// What the calls of a test met.
#[derive(Default)]
struct Seen {
    answers: Histogram,
    /// Done where the call that is not safe would be refused, and the other way round.
    safe_alone: usize,
    plain_alone: usize,
}

/// A refused call leaves image and buffer, and counts no write.
fn assert_refused(outcome: &Outcome, before: &[u8], after: &[u8]) {
    assert!(before == after, "refused by {}, but changed", outcome.answer);
    assert_eq!(outcome.output.count, [0]);
    assert!(outcome.output.writes.iter().all(|&byte| byte == UNREAD));
}

/// The number is the tree's, then 27 by the count of blocks, then 28 as worked out on lists, then 32 by the list's length.
fn assert_answer(call: &Call, answer: u32, image: &[u8], tree: &Tree, length: usize) {
    let Some(needed) = needed_blocks(image, tree, call) else {
        return assert_eq!(Some(answer), tree.refusal(call, 0), "{call:?}");
    };
    let free = totals(image, tree).free as u64;
    assert_eq!(answer == 27, free < needed, "{call:?}: {free} free, {needed} needed");
    let expected = worked_out_safely(image, tree, call).map_or(0, |(outcome, _)| outcome.answer);
    let expected = if expected == 0 && call.room() < length { 32 } else { expected };
    assert_eq!(answer, expected, "{call:?}");
    assert!(expected != 0 || length == (needed as usize + 1) * BLOCK_WRITE, "{call:?}");
}

/// The blocks are written in the order that is worked out on lists, and the slots and the anodes are those of the lists; all
/// other anodes are as they were.
fn assert_places(call: &Call, before: &[u8], tree: &Tree, after: &[u8], writes: &Writes) {
    let (outcome, taken) = worked_out_safely(before, tree, call).expect("it was done");
    assert!(writes.iter().map(|write| write.block).eq(taken.iter().copied()), "{call:?}: {taken:?}");
    let (old, new) = (AnodeTable::read(before), AnodeTable::read(after));
    assert!(new.slots().iter().map(|&number| usize::from(number)).eq(outcome.slots.iter().copied()));
    for number in new.existing() {
        let given = outcome.anodes.get(&number);
        let expected = given.map_or(old[number], |&(count, block, next)| Anode::new(count, block, next));
        assert_eq!(new[number], expected, "anode {number} after {call:?}");
    }
    if let Call::SafeMake { directory, name, .. } = call {
        assert_eq!(outcome.made, Some(head_of(after, *directory, name)), "the head of {call:?}");
    }
}

/// The tree is that which the call leaves that is not safe, where that one is done.
fn compare_with_plain(call: &Call, before: &[u8], after: &[u8], answer: u32, seen: &mut Seen) {
    let mut image = before.to_vec();
    let (mut blocks, mut anodes) = tables(&image);
    let plain = run::<Model>(&plainly(call), &mut image, &mut blocks, &mut anodes).answer;
    seen.safe_alone += usize::from(answer == 0 && plain != 0);
    seen.plain_alone += usize::from(answer != 0 && plain == 0);
    if answer == 0 && plain == 0 {
        let differences = Disk::<Model>::new(image).differences(&mut Disk::new(after.to_vec()));
        assert_eq!(differences, Ok(Vec::new()), "{call:?}");
    }
}

/// The call that is not safe.
fn plainly(call: &Call) -> Call {
    match call.clone() {
        Call::SafeMake { directory, kind, name, comment, stamp, protection, .. } => {
            Call::Make { directory, kind, name, comment, stamp, protection }
        }
        Call::SafeResize { directory, name, size, .. } => Call::Resize { directory, name, size },
        Call::SafeWrite { directory, name, offset, data, .. } => {
            Call::Write { directory, name, offset, data }
        }
        Call::SafeRemove { directory, name, .. } => Call::Remove { directory, name },
        other => other,
    }
}

/// Runs a safe call, and compares all that it leaves with what it must leave. The disk follows if it is done.
fn compare_safe(disk: &mut Shaped, call: &Call, seen: &mut Seen, rng: &mut Rng) {
    let length = list_length(call, &disk.image);
    let call = &any_room(call, length, rng);
    let before = disk.image.clone();
    let (mut blocks, mut anodes) = tables(&before);
    let outcome = run::<Model>(call, &mut disk.image, &mut blocks, &mut anodes);
    let answer = outcome.answer;
    seen.answers.add(answer, call.label());
    assert_answer(call, answer, &before, &disk.tree, length);
    compare_with_plain(call, &before, &disk.image, answer, seen);
    let (mut expected_blocks, mut expected_anodes) = tables(&before);
    assert_eq!(model::check(&disk.image, &mut expected_blocks, &mut expected_anodes), 0);
    assert_eq!((blocks, anodes), (expected_blocks, expected_anodes), "the tables are not the image's");
    if answer != 0 {
        return assert_refused(&outcome, &before, &disk.image);
    }
    assert!(outcome.output.writes[length..].iter().all(|&byte| byte == UNREAD), "written past the list");
    let writes = writes_of(&outcome);
    assert_list(&before, &disk.image, &writes);
    assert_places(call, &before, &disk.tree, &disk.image, &writes);
    assert_cuts::<Model>(&before, &disk.image, &writes);
    // No slot comes or goes, and a file keeps its head.
    let used = |image: &[u8]| used_slots(&slots(image)).map(|(slot, _)| slot).collect::<Vec<_>>();
    assert_eq!(used(&before), used(&disk.image));
    follow(&mut disk.tree, call, &disk.image);
    totals(&disk.image, &disk.tree);
    assert_holds::<Model>(&disk.image, &disk.tree);
}

/// Disks on which safe changes have room, and others.
const STARTS: [Start; 8] = [
    Start::Roomy,
    Start::Formatted,
    Start::Roomy,
    Start::Shaped,
    Start::FullAnodes,
    Start::FewAnodes,
    Start::FullBlocks,
    Start::FullSlots,
];

#[test]
fn safe_changes_leave_the_tree() {
    let mut seen = Seen::default();
    for mut case in seeded("safe_changes_leave_the_tree", 0..800) {
        let rng = &mut case.rng;
        let mut disk = STARTS[case.seed as usize % STARTS.len()].disk(rng);
        let mut trend = Trend::random(rng);
        for _ in 0..25 {
            trend = trend.next(rng);
            let free = totals(&disk.image, &disk.tree).free;
            let call = random_safe_call(&disk.image, &disk.tree, trend, free, rng);
            compare_safe(&mut disk, &call, &mut seen, rng);
        }
    }
    seen.answers.print("safe changes");
    println!("done safely alone: {}, done otherwise alone: {}", seen.safe_alone, seen.plain_alone);
    seen.answers.assert_met(&SAFE_DONE);
    seen.answers.assert_met(&SAFE_REFUSALS);
    assert!(seen.plain_alone > 0);
}

/// Every change of every entry, on disks with few anodes and few blocks.
#[test]
fn every_safe_change_leaves_the_tree() {
    let mut seen = Seen::default();
    for (start, seeds) in
        [(Start::FewAnodes, 100), (Start::FullSlots, 20), (Start::FullBlocks, 40), (Start::Roomy, 60)]
    {
        for mut case in seeded("every_safe_change_leaves_the_tree", 0..seeds) {
            let rng = &mut case.rng;
            let disk = start.disk(rng);
            for change in every_change(&disk.tree) {
                let call = change.safely(0).expect("every change has a safe call");
                compare_safe(&mut disk.clone(), &call, &mut seen, rng);
            }
        }
    }
    seen.answers.print("every safe change");
    seen.answers.assert_answered([0, 27, 28, 32]);
}
