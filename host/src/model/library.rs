//! The model as a library of calls.

use super::{
    bitmap, bitmap_differs, check, find_entry, format, label, make, read, remove, report, resize, safe_make,
    safe_remove, safe_resize, safe_write, summary, write, List, NewEntry,
};
use crate::calls::{Call, Lent, Library, Output};

/// The model.
pub struct Model;

impl Library for Model {
    fn answer(call: &Call, lent: Lent, output: &mut Output) -> u32 {
        let Lent { image, blocks, anodes } = lent;
        let list = List { writes: &mut output.writes, count: &mut output.count };
        match call {
            Call::Check => check(image, blocks, anodes),
            Call::Summary => summary(image, blocks, anodes, &mut output.counts),
            Call::Format { last_reserved, anode_blocks, name, stamp, protection } => {
                format(image, *last_reserved, *anode_blocks, name, *stamp, *protection)
            }
            Call::Read { directory, name, offset, .. } => {
                read(image, blocks, anodes, *directory, name, *offset, &mut output.bytes)
            }
            Call::List { directory, place } => {
                super::list(image, blocks, anodes, *directory, *place, &mut output.entry)
            }
            Call::Make { directory, kind, name, comment, stamp, protection } => {
                let entry = NewEntry { kind: *kind, name, comment, stamp: *stamp, protection: *protection };
                make(image, blocks, anodes, *directory, &entry)
            }
            Call::Resize { directory, name, size } => resize(image, blocks, anodes, *directory, name, *size),
            Call::Write { directory, name, offset, data } => {
                write(image, blocks, anodes, *directory, name, *offset, data)
            }
            Call::Remove { directory, name } => remove(image, blocks, anodes, *directory, name),
            Call::Bitmap { .. } => bitmap(image, blocks, anodes, &mut output.bytes),
            Call::BitmapDiffers { bitmap } => {
                bitmap_differs(image, blocks, anodes, bitmap, &mut output.difference)
            }
            Call::Find { directory, name } => {
                find_entry(image, blocks, anodes, *directory, name, &mut output.entry)
            }
            Call::Label => label(image, blocks, anodes, &mut output.label),
            Call::Report { .. } => report(image, blocks, anodes, &mut output.totals, &mut output.disk),
            Call::SafeMake { directory, kind, name, comment, stamp, protection, .. } => {
                let entry = NewEntry { kind: *kind, name, comment, stamp: *stamp, protection: *protection };
                safe_make(image, blocks, anodes, *directory, &entry, list)
            }
            Call::SafeResize { directory, name, size, .. } => {
                safe_resize(image, blocks, anodes, *directory, name, *size, list)
            }
            Call::SafeWrite { directory, name, offset, data, .. } => {
                safe_write(image, blocks, anodes, *directory, name, (*offset, data), list)
            }
            Call::SafeRemove { directory, name, .. } => {
                safe_remove(image, blocks, anodes, *directory, name, list)
            }
        }
    }
}
