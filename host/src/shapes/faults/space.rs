//! Faults in the root block, the anode blocks and the anodes.

use std::ops::RangeInclusive;

use super::{spoil, Fault};
use crate::model::layout::*;
use crate::rng::Rng;
use crate::shapes::damage::Damager;

/// The faults that are aimed at a number from 3 to 11.
pub(super) fn faults(number: u32) -> &'static [Fault] {
    match number {
        3 => &[other_type],
        4 => &[first_reserved, low_last_reserved, high_last_reserved, disk_name_length],
        5 => &[no_slot_0, low_slot, high_slot, anode_mark, sequence, wrong_new_slot],
        6 => &[anode_0, anode_1_count, anode_1_block, half_cleared_0_or_1, anode_2_free, anode_5_free],
        7 => &[
            end_above,
            wrapped_end,
            next_missing,
            next_free,
            half_cleared_2_to_5,
            half_cleared_in_use,
            count_or_next_set,
        ],
        8 => &[next_special, next_itself, second_predecessor, ring],
        9 => &[cut_before_2, last_reserved_raised, last_reserved_lowered, upper_moved, lower_moved],
        10 => &[extent_grown, extent_moved, system_block_owned, free_anode_given_a_block, empty_filled],
        11 => &[extent_shrunk, start_shrunk, slot_dropped, last_link_cut],
        _ => &[],
    }
}

/// The lowest of these numbers half of the time, else any.
fn low_or_any(numbers: RangeInclusive<u16>, rng: &mut Rng) -> u16 {
    match rng.percent(50) {
        true => *numbers.start(),
        false => rng.within16(numbers),
    }
}

// 3 and 4: the root block.

fn root_mut(image: &mut [u8]) -> &mut [u8] {
    block_mut(image, ROOT_BLOCK)
}

fn other_type(_: &Damager, image: &mut [u8], rng: &mut Rng) -> Option<()> {
    spoil(&mut root_mut(image)[..4], rng);
    Some(())
}

fn first_reserved(_: &Damager, image: &mut [u8], rng: &mut Rng) -> Option<()> {
    put_word(root_mut(image), ROOT_FIRST_RESERVED, rng.within16(1..=65_535));
    Some(())
}

fn low_last_reserved(_: &Damager, image: &mut [u8], rng: &mut Rng) -> Option<()> {
    put_word(root_mut(image), ROOT_LAST_RESERVED, rng.within16(0..=1));
    Some(())
}

fn high_last_reserved(damager: &Damager, image: &mut [u8], rng: &mut Rng) -> Option<()> {
    put_word(root_mut(image), ROOT_LAST_RESERVED, low_or_any(damager.size16()..=65_535, rng));
    Some(())
}

fn disk_name_length(_: &Damager, image: &mut [u8], rng: &mut Rng) -> Option<()> {
    root_mut(image)[ROOT_NAME] = [0, 32, rng.within(32..=255) as u8][rng.below(3)];
    Some(())
}

// 5: the slots.

fn put_slot(image: &mut [u8], slot: usize, number: u16) {
    put_word(root_mut(image), ROOT_SLOTS + 2 * slot, number);
}

fn any_anode_block(damager: &Damager, rng: &mut Rng) -> Option<u16> {
    rng.pick(&damager.anode_blocks()).copied()
}

fn no_slot_0(_: &Damager, image: &mut [u8], _: &mut Rng) -> Option<()> {
    put_slot(image, 0, 0);
    Some(())
}

fn low_slot(_: &Damager, image: &mut [u8], rng: &mut Rng) -> Option<()> {
    put_slot(image, rng.below(SLOTS), rng.within16(1..=2));
    Some(())
}

fn high_slot(damager: &Damager, image: &mut [u8], rng: &mut Rng) -> Option<()> {
    put_slot(image, rng.below(SLOTS), low_or_any(damager.size16()..=65_535, rng));
    Some(())
}

fn anode_mark(damager: &Damager, image: &mut [u8], rng: &mut Rng) -> Option<()> {
    let number = any_anode_block(damager, rng)?;
    spoil(&mut block_mut(image, number)[..2], rng);
    Some(())
}

fn sequence(damager: &Damager, image: &mut [u8], rng: &mut Rng) -> Option<()> {
    let number = any_anode_block(damager, rng)?;
    spoil(&mut block_mut(image, number)[ANODE_SEQUENCE..][..2], rng);
    Some(())
}

/// An unused slot gets a block that is not its anode block: one of another slot, or any.
fn wrong_new_slot(damager: &Damager, image: &mut [u8], rng: &mut Rng) -> Option<()> {
    let slots = damager.survey.table.slots();
    let unused: Vec<usize> = (0..SLOTS).filter(|&slot| slots[slot] == 0).collect();
    let slot = *rng.pick(&unused)?;
    let number = match rng.percent(50) {
        true => any_anode_block(damager, rng)?,
        false => rng.within16(3..=damager.size16() - 1),
    };
    let bytes = block(damager.image, number);
    if bytes[..2] == ANODE_MARK && usize::from(word(bytes, ANODE_SEQUENCE)) == slot {
        return None;
    }
    put_slot(image, slot, number);
    Some(())
}

// 6: the fixed anodes.

fn anode_0(damager: &Damager, image: &mut [u8], rng: &mut Rng) -> Option<()> {
    spoil(&mut image[damager.anode_place(0)..][..ANODE_BYTES], rng);
    Some(())
}

fn anode_1_count(damager: &Damager, image: &mut [u8], rng: &mut Rng) -> Option<()> {
    damager.put_count(image, FREE_LIST, rng.within16(1..=65_535));
    Some(())
}

fn anode_1_block(damager: &Damager, image: &mut [u8], rng: &mut Rng) -> Option<()> {
    damager.put_block(image, FREE_LIST, rng.within16(0..=65_534));
    Some(())
}

fn half_cleared_0_or_1(damager: &Damager, image: &mut [u8], rng: &mut Rng) -> Option<()> {
    damager.half_clear(image, rng.within16(0..=FREE_LIST), rng);
    Some(())
}

fn anode_2_free(damager: &Damager, image: &mut [u8], _: &mut Rng) -> Option<()> {
    damager.put_anode(image, RESERVED, Anode::ZERO);
    Some(())
}

fn anode_5_free(damager: &Damager, image: &mut [u8], _: &mut Rng) -> Option<()> {
    damager.put_anode(image, ROOT_DIRECTORY, Anode::ZERO);
    Some(())
}

// 7: the fields of anodes.

fn end_above(damager: &Damager, image: &mut [u8], rng: &mut Rng) -> Option<()> {
    let number = damager.any_in_use(rng, |number, _| number != FREE_LIST)?;
    let start = damager.anode(number).block;
    let least = damager.size16().saturating_sub(start).max(1) + u16::from(start < damager.size16());
    damager.put_count(image, number, low_or_any(least..=65_535, rng));
    Some(())
}

/// The end is past 65,535, so that sixteen bits would take it for a small number.
fn wrapped_end(damager: &Damager, image: &mut [u8], rng: &mut Rng) -> Option<()> {
    let number = damager.any_in_use(rng, |number, _| number != FREE_LIST)?;
    let least = 65_536 - usize::from(damager.anode(number).block);
    damager.put_count(image, number, rng.within(least..=65_535) as u16);
    Some(())
}

fn next_missing(damager: &Damager, image: &mut [u8], rng: &mut Rng) -> Option<()> {
    let number = damager.any_in_use(rng, |_, _| true)?;
    damager.put_next(image, number, damager.any_missing(rng));
    Some(())
}

fn next_free(damager: &Damager, image: &mut [u8], rng: &mut Rng) -> Option<()> {
    let number = damager.any_in_use(rng, |_, _| true)?;
    damager.put_next(image, number, damager.any_free(rng, TO_BE_FREED)?);
    Some(())
}

fn half_cleared_2_to_5(damager: &Damager, image: &mut [u8], rng: &mut Rng) -> Option<()> {
    damager.half_clear(image, rng.within16(RESERVED..=ROOT_DIRECTORY), rng);
    Some(())
}

fn half_cleared_in_use(damager: &Damager, image: &mut [u8], rng: &mut Rng) -> Option<()> {
    let number = damager.any_in_use(rng, |number, _| number != FREE_LIST)?;
    damager.half_clear(image, number, rng);
    Some(())
}

/// A free anode has something in its count or its next.
fn count_or_next_set(damager: &Damager, image: &mut [u8], rng: &mut Rng) -> Option<()> {
    let number = damager.any_free(rng, TO_BE_FREED)?;
    damager.half_clear(image, number, rng);
    Some(())
}

// 8: predecessors and rings.

fn next_special(damager: &Damager, image: &mut [u8], rng: &mut Rng) -> Option<()> {
    let special = [FREE_LIST, TO_BE_FREED, BAD_BLOCKS, ROOT_DIRECTORY][rng.below(4)];
    if !damager.survey.table.in_use(special) {
        return None;
    }
    let number = damager.any_in_use(rng, |_, _| true)?;
    damager.put_next(image, number, special);
    Some(())
}

fn next_itself(damager: &Damager, image: &mut [u8], rng: &mut Rng) -> Option<()> {
    let number = damager.any_in_use(rng, |_, _| true)?;
    damager.put_next(image, number, number);
    Some(())
}

fn second_predecessor(damager: &Damager, image: &mut [u8], rng: &mut Rng) -> Option<()> {
    let follower = damager.any_in_use(rng, |number, _| damager.predecessor(number).is_some())?;
    let number = damager.any_in_use(rng, |_, anode| anode.next != follower)?;
    damager.put_next(image, number, follower);
    Some(())
}

/// An anode leads back to one at or before it in its chain.
fn ring(damager: &Damager, image: &mut [u8], rng: &mut Rng) -> Option<()> {
    let number = damager.any_in_use(rng, |_, _| true)?;
    let chain = damager.survey.table.chain(damager.heads[usize::from(number)]);
    let before: Vec<u16> = chain.map(|(number, _)| number).take_while(|&other| other != number).collect();
    let back = rng.pick(&before).copied().unwrap_or(number);
    damager.put_next(image, number, back);
    Some(())
}

// 9: the free list.

fn cut_before_2(damager: &Damager, image: &mut [u8], _: &mut Rng) -> Option<()> {
    let before = damager.predecessor(RESERVED)?;
    damager.put_next(image, before, 0);
    Some(())
}

/// Last reserved goes up into an upper extent.
fn last_reserved_raised(damager: &Damager, image: &mut [u8], rng: &mut Rng) -> Option<()> {
    let number = damager.with_blocks(damager.sides().0, rng)?;
    let last = low_or_any(damager.anode(number).block..=damager.size16() - 1, rng);
    put_word(root_mut(image), ROOT_LAST_RESERVED, last);
    Some(())
}

/// Last reserved goes down before the last block of a lower extent.
fn last_reserved_lowered(damager: &Damager, image: &mut [u8], rng: &mut Rng) -> Option<()> {
    let number = damager.with_blocks(damager.sides().1, rng)?;
    let highest = damager.anode(number).end() - 2;
    let last = if rng.percent(50) { highest } else { rng.within(2..=highest) };
    put_word(root_mut(image), ROOT_LAST_RESERVED, last as u16);
    Some(())
}

fn upper_moved(damager: &Damager, image: &mut [u8], rng: &mut Rng) -> Option<()> {
    let number = damager.with_blocks(damager.sides().0, rng)?;
    damager.put_block(image, number, rng.within16(1..=damager.survey.last_reserved));
    Some(())
}

fn lower_moved(damager: &Damager, image: &mut [u8], rng: &mut Rng) -> Option<()> {
    let number = damager.with_blocks(damager.sides().1, rng)?;
    let count = usize::from(damager.anode(number).count);
    let lowest = (usize::from(damager.survey.last_reserved) + 2).saturating_sub(count).max(1);
    let highest = damager.survey.blocks - count;
    if lowest > highest {
        return None;
    }
    damager.put_block(image, number, rng.within(lowest..=highest) as u16);
    Some(())
}

// 10: two owners. Every block has an owner already, so whatever is owned besides is owned twice.

fn extent_grown(damager: &Damager, image: &mut [u8], rng: &mut Rng) -> Option<()> {
    let fits = |number, anode: Anode| {
        !damager.on_free_list(number) && anode.count > 0 && anode.end() < damager.survey.blocks
    };
    let number = damager.any_in_use(rng, fits)?;
    damager.put_count(image, number, damager.anode(number).count + 1);
    Some(())
}

fn extent_moved(damager: &Damager, image: &mut [u8], rng: &mut Rng) -> Option<()> {
    let fits = |number, anode: Anode| !damager.on_free_list(number) && anode.count > 0;
    let number = damager.any_in_use(rng, fits)?;
    let anode = damager.anode(number);
    let start = rng.within16(1..=damager.size16() - anode.count);
    if start == anode.block {
        return None;
    }
    damager.put_block(image, number, start);
    Some(())
}

fn system_block_owned(damager: &Damager, image: &mut [u8], rng: &mut Rng) -> Option<()> {
    let upper = damager.sides().0;
    let number = damager.any_in_use(rng, |number, anode| anode.count > 0 && !upper.contains(&number))?;
    damager.put_block(image, number, rng.within16(1..=2));
    Some(())
}

fn free_anode_given_a_block(damager: &Damager, image: &mut [u8], rng: &mut Rng) -> Option<()> {
    let number = damager.any_free(rng, TO_BE_FREED)?;
    let start = rng.within16(1..=damager.size16() - 1);
    damager.put_anode(image, number, Anode::new(1, start, 0));
    Some(())
}

fn empty_filled(damager: &Damager, image: &mut [u8], rng: &mut Rng) -> Option<()> {
    let number = damager.any_in_use(rng, |number, anode| number != FREE_LIST && anode.count == 0)?;
    let (upper, lower) = damager.sides();
    let (lowest, highest) = if upper.contains(&number) {
        (damager.survey.last_reserved + 1, damager.size16() - 1)
    } else if lower.contains(&number) {
        (1, damager.survey.last_reserved)
    } else {
        (1, damager.size16() - 1)
    };
    if lowest > highest {
        return None;
    }
    let next = damager.anode(number).next;
    damager.put_anode(image, number, Anode::new(1, rng.within16(lowest..=highest), next));
    Some(())
}

// 11: no owner.

fn extent_shrunk(damager: &Damager, image: &mut [u8], rng: &mut Rng) -> Option<()> {
    let number = damager.any_in_use(rng, |_, anode| anode.count > 0)?;
    damager.put_count(image, number, damager.anode(number).count - 1);
    Some(())
}

fn start_shrunk(damager: &Damager, image: &mut [u8], rng: &mut Rng) -> Option<()> {
    let number = damager.any_in_use(rng, |_, anode| anode.count > 0)?;
    let anode = damager.anode(number);
    damager.put_anode(image, number, Anode::new(anode.count - 1, anode.block + 1, anode.next));
    Some(())
}

fn slot_dropped(damager: &Damager, image: &mut [u8], rng: &mut Rng) -> Option<()> {
    let table = &damager.survey.table;
    let unused = |&slot: &usize| {
        let first = slot * ANODES_IN_BLOCK;
        slot != 0
            && table.slots()[slot] != 0
            && (first..first + ANODES_IN_BLOCK).all(|number| !table.in_use(number as u16))
    };
    let slots: Vec<usize> = (0..SLOTS).filter(unused).collect();
    put_slot(image, *rng.pick(&slots)?, 0);
    Some(())
}

fn last_link_cut(damager: &Damager, image: &mut [u8], rng: &mut Rng) -> Option<()> {
    let number = damager.any_tail(rng, |anode| anode.count > 0)?;
    damager.put_next(image, damager.predecessor(number)?, 0);
    damager.put_anode(image, number, Anode::ZERO);
    Some(())
}
