//! A disk under a command that changes it. Either the disk file is replaced in the end, or every change is a safe one, whose
//! block writes are kept until all changes of the command are done, and then made in the file itself.

use crate::calls::Library;
use crate::disk::{Disk, Error, New};
use crate::safe::Writes;

/// How the changes of a command come to the disk.
#[derive(Clone, Copy, Debug, PartialEq, Eq)]
pub enum Way {
    /// The disk file is replaced as a whole.
    Replaced,
    /// By safe changes, in the file or the device itself.
    InPlace,
}

/// A disk, and the block writes of its changes so far, if they are to be made in place.
pub struct Edit<L: Library> {
    pub disk: Disk<L>,
    lists: Option<Vec<Writes>>,
}

impl<L: Library> Edit<L> {
    pub fn new(disk: Disk<L>, way: Way) -> Self {
        let lists = (way == Way::InPlace).then(Vec::new);
        Edit { disk, lists }
    }

    pub fn way(&self) -> Way {
        match self.lists {
            None => Way::Replaced,
            Some(_) => Way::InPlace,
        }
    }

    /// The block writes of the changes, one list for each.
    pub fn into_lists(self) -> Vec<Writes> {
        self.lists.unwrap_or_default()
    }

    /// Makes a change in one way or the other.
    fn change(
        &mut self,
        replaced: impl FnOnce(&mut Disk<L>) -> Result<(), Error>,
        in_place: impl FnOnce(&mut Disk<L>) -> Result<Writes, Error>,
    ) -> Result<(), Error> {
        match &mut self.lists {
            None => replaced(&mut self.disk),
            Some(lists) => in_place(&mut self.disk).map(|writes| lists.push(writes)),
        }
    }

    pub fn make(&mut self, directory: u16, new: &New) -> Result<(), Error> {
        self.change(|disk| disk.make(directory, new), |disk| disk.safe_make(directory, new))
    }

    pub fn resize(&mut self, directory: u16, name: &[u8], size: u64) -> Result<(), Error> {
        self.change(|disk| disk.resize(directory, name, size), |disk| disk.safe_resize(directory, name, size))
    }

    pub fn write(&mut self, directory: u16, name: &[u8], bytes: &[u8]) -> Result<(), Error> {
        self.change(
            |disk| disk.write(directory, name, 0, bytes),
            |disk| disk.safe_write(directory, name, 0, bytes),
        )
    }

    pub fn remove(&mut self, directory: u16, name: &[u8]) -> Result<(), Error> {
        self.change(|disk| disk.remove(directory, name), |disk| disk.safe_remove(directory, name))
    }
}
