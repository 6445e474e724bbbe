//! The faults that damage an accepted image, each aimed at one refusal number: the damaged image breaks the rule of
//! that number and none of the rules that are tried before.
//!
//! * `space`: 3 to 11, in the root block, the anode blocks and the anodes.
//! * `entries`: 12 to 16, in directories and in what their entries name.
//! * `names`: 17, in what their entries are called.

pub(super) mod entries;
pub(super) mod names;
mod space;

use super::damage::Damager;
use crate::model::layout::{BLOCK, FEWEST_BLOCKS};
use crate::rng::Rng;

/// Damages an image, or answers nothing where the disk has nothing to damage in this way.
pub(super) type Fault = fn(&Damager, &mut [u8], &mut Rng) -> Option<()>;

/// The faults that are aimed at a number from 3 up; 1 is about the length of the image, 2 about the tables.
pub(super) fn faults(number: u32) -> &'static [Fault] {
    match number {
        3..=11 => space::faults(number),
        17 => names::FAULTS,
        _ => entries::faults(number),
    }
}

/// 1: the image with bytes cut off or added, or cut to fewer blocks than a disk has.
pub(super) fn wrong_length(image: &[u8], rng: &mut Rng) -> Vec<u8> {
    let odd = rng.within(1..=511);
    match rng.below(3) {
        0 => image[..image.len() - odd].to_vec(),
        1 => image[..rng.below(FEWEST_BLOCKS) * BLOCK].to_vec(),
        _ => [image, &rng.bytes(odd)].concat(),
    }
}

/// Makes one of these bytes another one.
fn spoil(bytes: &mut [u8], rng: &mut Rng) {
    bytes[rng.below(bytes.len())] ^= rng.within(1..=255) as u8;
}

#[cfg(test)]
mod tests {
    use super::*;
    use crate::calls::tables;
    use crate::model::check;
    use crate::rng::seeded;
    use crate::shapes::accepted;

    /// Each fault is possible on some disk, and gives its number wherever it is.
    #[test]
    fn every_fault_gives_its_number() {
        let mut met: Vec<Vec<usize>> = (3..=17).map(|number| vec![0; faults(number).len()]).collect();
        for mut case in seeded("every_fault_gives_its_number", 0..400) {
            let image = accepted(300, &mut case.rng);
            let damager = Damager::new(&image).expect("the image is accepted");
            for (number, met) in (3..=17).zip(&mut met) {
                for (place, fault) in faults(number).iter().enumerate() {
                    let mut damaged = image.clone();
                    if fault(&damager, &mut damaged, &mut case.rng).is_some() {
                        let (mut blocks, mut anodes) = tables(&damaged);
                        assert_eq!(check(&damaged, &mut blocks, &mut anodes), number, "fault {place}");
                        met[place] += 1;
                    }
                }
            }
        }
        for (number, met) in (3..=17).zip(met) {
            assert!(!met.is_empty() && met.iter().all(|&count| count > 0), "{number}: met {met:?} times");
        }
    }
}
