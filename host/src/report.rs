//! A shift report: totals over many disks, fed one after another.

use crate::calls::TOTALS;

/// What a report counts on one disk, or the sums over many.
#[derive(Clone, Copy, Debug, Default, PartialEq, Eq)]
pub struct Figures {
    /// Free blocks.
    pub free: u64,
    pub files: u64,
    /// With the root.
    pub directories: u64,
    /// The longest run of free blocks.
    pub longest_free: u64,
    /// Files in more than one run of blocks.
    pub split_files: u64,
}

impl Figures {
    pub(crate) fn of(numbers: [u64; 5]) -> Self {
        let [free, files, directories, longest_free, split_files] = numbers;
        Figures { free, files, directories, longest_free, split_files }
    }

    /// In the order of the interface.
    pub fn numbers(&self) -> [u64; 5] {
        [self.free, self.files, self.directories, self.longest_free, self.split_files]
    }
}

/// The totals of a report, empty at first. [`Disk::report`](crate::disk::Disk::report) feeds a disk to them.
#[derive(Clone, Debug, Default, PartialEq, Eq)]
pub struct Report {
    pub(crate) totals: [u64; TOTALS],
}

impl Report {
    /// Empty totals.
    pub fn new() -> Self {
        Report::default()
    }

    /// Totals as the interface has them: 0 accepted, 1 to 17 refused under that number, 18 to 22 the sums of the five
    /// numbers, 23 that of the bytes.
    pub fn totals(&self) -> &[u64; TOTALS] {
        &self.totals
    }

    /// How many disks were accepted.
    pub fn accepted(&self) -> u64 {
        self.totals[0]
    }

    /// The numbers under which disks were refused, with how many.
    pub fn refused(&self) -> impl Iterator<Item = (u32, u64)> + '_ {
        (1..).zip(self.totals[1..18].iter().copied()).filter(|&(_, count)| count > 0)
    }

    /// The sums over the accepted disks.
    pub fn sums(&self) -> Figures {
        Figures::of(std::array::from_fn(|place| self.totals[18 + place]))
    }

    /// The mean file size as two whole numbers: the bytes of all files, and how many files there are.
    pub fn mean(&self) -> (u64, u64) {
        (self.totals[23], self.totals[19])
    }
}
