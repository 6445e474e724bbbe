//! The command line `pfs`, run as a program.

mod alike;
mod anodes;
mod changes;
mod daily;
mod diff;
mod faults;
mod folder;
mod looks;
mod manual;
mod pages;
mod refusals;
mod report;
mod safe;
mod settings;
