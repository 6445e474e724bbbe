//! The shift report: totals that are fed one image after another. They are 24 numbers: how many images were accepted (0) and
//! refused under each number (1 to 17), the sums of five numbers of each accepted disk, and the sum of its files' bytes.

use super::check::{survey, Survey};
use super::layout::*;

/// So many images are taken, accepted and refused together.
const MOST_IMAGES: u128 = 100_000;
/// Totals with a sum above this take no further one.
const LARGEST_SUM: u64 = 10_000_000_000_000;
/// The numbers of the totals that count answers.
const ANSWERS: usize = 18;

/// The runs of a chain, each with its length: its blocks by number, across anodes and in any order of the chain.
fn runs(table: &AnodeTable, head: u16) -> Vec<usize> {
    let mut blocks: Vec<u16> = table.chain_blocks(head).collect();
    // Mostly they are in order already, which this sort makes use of.
    blocks.sort();
    blocks.chunk_by(|block, next| block + 1 == *next).map(<[u16]>::len).collect()
}

/// Blocks free, files, directories with the root, the longest free run, files in more than one run; and the bytes of all
/// files.
fn figures(image: &[u8], survey: &Survey) -> [u64; 6] {
    let table = &survey.table;
    let longest = runs(table, FREE_LIST).into_iter().max().unwrap_or(0);
    let (mut split, mut bytes) = (0, 0);
    let mut reached = vec![ROOT_DIRECTORY];
    while let Some(directory) = reached.pop() {
        for number in table.chain_blocks(directory) {
            for entry in Entries::of(block(image, number)).flatten() {
                if entry.kind == DIRECTORY {
                    reached.push(entry.anode);
                } else {
                    split += u64::from(runs(table, entry.anode).len() > 1);
                    bytes += u64::from(entry.size);
                }
            }
        }
    }
    [survey.free.into(), survey.files.into(), survey.directories.into(), longest as u64, split, bytes]
}

/// Feeds an image to the totals. Totals that take no further image answer 31 before any check, and nothing is touched. A disk
/// that the check refuses adds to its refusal's count alone, and its five numbers are 0.
pub fn report(
    image: &[u8],
    blocks: &mut [u16],
    anodes: &mut [u16],
    totals: &mut [u64; 24],
    disk: &mut [u64; 5],
) -> u32 {
    let (answers, sums) = totals.split_at_mut(ANSWERS);
    let images: u128 = answers.iter().map(|&count| u128::from(count)).sum();
    if images >= MOST_IMAGES || sums.iter().any(|&sum| sum > LARGEST_SUM) {
        return 31;
    }
    let (answer, figures) = match survey(image, blocks, anodes) {
        Ok(survey) => (0, figures(image, &survey)),
        Err(number) => (number, [0; 6]),
    };
    answers[answer as usize] += 1;
    for (sum, figure) in sums.iter_mut().zip(figures) {
        *sum += figure;
    }
    disk.copy_from_slice(&figures[..5]);
    answer
}
