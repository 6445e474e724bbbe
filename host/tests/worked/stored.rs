//! The disks that are stored beside the program that prints one line about a disk, and what is stored of its line.

use ovenknit_host::calls::{run, tables, Call, Library, BLOCK};
use ovenknit_host::disk::{Disk, Owner};

/// The stored input and output of a program.
macro_rules! stored {
    ($program:literal) => {
        (
            &include_bytes!(concat!("../../../crates/", $program, "/stdin"))[..],
            include_str!(concat!("../../../crates/", $program, "/stdout")),
        )
    };
}

/// As much input as the program reads.
const MOST: usize = 128 * BLOCK;

/// The line about an image.
fn line<L: Library>(input: &[u8]) -> String {
    if input.len() > MOST {
        return "TOO LARGE\n".into();
    }
    let (mut blocks, mut anodes) = tables(input);
    let outcome = run::<L>(&Call::Summary, &mut input.to_vec(), &mut blocks, &mut anodes);
    match (outcome.answer, outcome.output.counts) {
        (0, [size, free, files, dirs]) => format!("PFS0 {size} free {free} files {files} dirs {dirs}\n"),
        (refusal, _) => format!("REFUSED {refusal}\n"),
    }
}

fn stored_lines_are_those_of_the_stored_disks<L: Library>() {
    for (input, output) in [
        stored!("pfsinfo"),
        stored!("pfsinfo_empty"),
        stored!("pfsinfo_large"),
        stored!("pfsinfo_damaged"),
        stored!("pfsinfo_full"),
        stored!("pfsinfo_files"),
    ] {
        assert_eq!(line::<L>(input), output);
    }
}

fn a_stored_disk_has_files_directories_and_free_blocks_on_both_sides<L: Library>() {
    let mut disk = Disk::<L>::new(stored!("pfsinfo_files").0.to_vec());
    let summary = disk.summary().expect("the disk is accepted");
    // The root is counted.
    assert_eq!((summary.files, summary.directories), (2, 3));
    let last_reserved = 15;
    assert_eq!(disk.image()[2 * BLOCK + 54..][..2], [0, last_reserved]);
    let free = |owner: &Owner| *owner == Owner::Free;
    let below = disk.owners().take(usize::from(last_reserved) + 1).filter(free).count();
    let above = disk.owners().skip(usize::from(last_reserved) + 1).filter(free).count();
    assert_eq!((below, above), (9, 28));
    assert_eq!(below + above, summary.free as usize);
}

both!(
    stored_lines_are_those_of_the_stored_disks,
    a_stored_disk_has_files_directories_and_free_blocks_on_both_sides,
);
