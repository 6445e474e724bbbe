//! The proved library, called through its C interface.

use crate::calls::{Call, Lent, Library, Output};
use crate::differences::{Comparer, NUMBERS};
use crate::settings::{Conversion, Converter};

/// The C interface, as in `pfs.h`.
mod c {
    /// Declares calls that are lent an image and both tables before their own arguments.
    macro_rules! declare {
        ($($name:ident($image:ty $(, $argument:ident: $type:ty)*);)*) => {
            extern "C" {
                $(pub fn $name(
                    image: $image,
                    image_len: usize,
                    blocks: *mut u16,
                    blocks_len: usize,
                    anodes: *mut u16,
                    anodes_len: usize
                    $(, $argument: $type)*
                ) -> u32;)*
            }
        };
    }

    declare! {
        pfs_check(*const u8);
        pfs_summary(*const u8, fields: *mut u32);
        pfs_read(*const u8, directory: u16, name: *const u8, name_len: usize, offset: u64, out: *mut u8, out_len: usize);
        pfs_list(*const u8, directory: u16, place: u64, fields: *mut u32);
        pfs_make(
            *mut u8, directory: u16, kind: u8, name: *const u8, name_len: usize, comment: *const u8, comment_len: usize,
            day: u16, minute: u16, tick: u16, protection: u8
        );
        pfs_resize(*mut u8, directory: u16, name: *const u8, name_len: usize, size: u64);
        pfs_write(*mut u8, directory: u16, name: *const u8, name_len: usize, offset: u64, data: *const u8, data_len: usize);
        pfs_remove(*mut u8, directory: u16, name: *const u8, name_len: usize);
        pfs_find(*const u8, directory: u16, name: *const u8, name_len: usize, fields: *mut u32);
        pfs_label(*const u8, fields: *mut u32);
        pfs_bitmap(*const u8, bitmap: *mut u8, bitmap_len: usize);
        pfs_bitmap_differs(*const u8, bitmap: *const u8, bitmap_len: usize, fields: *mut u32);
        pfs_report(*const u8, totals: *mut u64, disk: *mut u64);
        pfs_safe_make(
            *mut u8, directory: u16, kind: u8, name: *const u8, name_len: usize, comment: *const u8, comment_len: usize,
            day: u16, minute: u16, tick: u16, protection: u8, writes: *mut u8, writes_len: usize, count: *mut u32
        );
        pfs_safe_resize(
            *mut u8, directory: u16, name: *const u8, name_len: usize, size: u64,
            writes: *mut u8, writes_len: usize, count: *mut u32
        );
        pfs_safe_write(
            *mut u8, directory: u16, name: *const u8, name_len: usize, offset: u64, data: *const u8, data_len: usize,
            writes: *mut u8, writes_len: usize, count: *mut u32
        );
        pfs_safe_remove(
            *mut u8, directory: u16, name: *const u8, name_len: usize,
            writes: *mut u8, writes_len: usize, count: *mut u32
        );
    }

    /// Declares calls that are lent two images, each with its tables, before their own arguments.
    macro_rules! declare_of_two {
        ($($name:ident($($argument:ident: $type:ty),*);)*) => {
            extern "C" {
                $(pub fn $name(
                    image: *const u8,
                    image_len: usize,
                    blocks: *mut u16,
                    blocks_len: usize,
                    anodes: *mut u16,
                    anodes_len: usize,
                    second_image: *const u8,
                    second_image_len: usize,
                    second_blocks: *mut u16,
                    second_blocks_len: usize,
                    second_anodes: *mut u16,
                    second_anodes_len: usize
                    $(, $argument: $type)*
                ) -> u32;)*
            }
        };
    }

    declare_of_two! {
        pfs_compare(place: u64, fields: *mut u32);
        pfs_differences(place: u64, out: *mut u32, out_len: usize, fields: *mut u32);
    }

    extern "C" {
        pub fn pfs_format(
            image: *mut u8,
            image_len: usize,
            last_reserved: u16,
            anode_blocks: u16,
            name: *const u8,
            name_len: usize,
            day: u16,
            minute: u16,
            tick: u16,
            protection: u16,
        ) -> u32;
        pub fn pfs_widen(
            file: *const u8,
            file_len: usize,
            out: *mut u8,
            out_len: usize,
            fields: *mut u32,
        ) -> u32;
        pub fn pfs_narrow(
            file: *const u8,
            file_len: usize,
            out: *mut u8,
            out_len: usize,
            fields: *mut u32,
        ) -> u32;
    }
}

/// The proved library.
pub struct Proved;

impl Library for Proved {
    fn answer(call: &Call, lent: Lent, output: &mut Output) -> u32 {
        let Lent { image, blocks, anodes } = lent;
        /// A call with the image and both tables lent to it.
        macro_rules! lend {
            ($name:ident $(, $argument:expr)*) => {
                c::$name(
                    image.as_mut_ptr(),
                    image.len(),
                    blocks.as_mut_ptr(),
                    blocks.len(),
                    anodes.as_mut_ptr(),
                    anodes.len()
                    $(, $argument)*
                )
            };
        }
        let Output { bytes, counts, entry, difference, label, totals, disk, writes, count } = output;
        /// A safe call with the buffer for its block writes behind its own arguments.
        macro_rules! lend_safely {
            ($name:ident $(, $argument:expr)*) => {{
                let (list, length) = (writes.as_mut_ptr(), writes.len());
                lend!($name $(, $argument)*, list, length, count.as_mut_ptr())
            }};
        }
        // SAFETY: slices are handed on as pointer and length, and the fields have the lengths that `pfs.h` asks. A
        // slice that is lent to be written shares no byte with any other, which is all the interface asks.
        unsafe {
            match call {
                Call::Check => lend!(pfs_check),
                Call::Summary => lend!(pfs_summary, counts.as_mut_ptr()),
                Call::Format { last_reserved, anode_blocks, name, stamp, protection } => c::pfs_format(
                    image.as_mut_ptr(),
                    image.len(),
                    *last_reserved,
                    *anode_blocks,
                    name.as_ptr(),
                    name.len(),
                    stamp.day,
                    stamp.minute,
                    stamp.tick,
                    *protection,
                ),
                Call::Read { directory, name, offset, .. } => {
                    let (out, length) = (bytes.as_mut_ptr(), bytes.len());
                    lend!(pfs_read, *directory, name.as_ptr(), name.len(), *offset, out, length)
                }
                Call::List { directory, place } => {
                    lend!(pfs_list, *directory, *place, entry.as_mut_ptr())
                }
                Call::Make { directory, kind, name, comment, stamp, protection } => lend!(
                    pfs_make,
                    *directory,
                    *kind,
                    name.as_ptr(),
                    name.len(),
                    comment.as_ptr(),
                    comment.len(),
                    stamp.day,
                    stamp.minute,
                    stamp.tick,
                    *protection
                ),
                Call::Resize { directory, name, size } => {
                    lend!(pfs_resize, *directory, name.as_ptr(), name.len(), *size)
                }
                Call::Write { directory, name, offset, data } => {
                    let (from, length) = (data.as_ptr(), data.len());
                    lend!(pfs_write, *directory, name.as_ptr(), name.len(), *offset, from, length)
                }
                Call::Remove { directory, name } => {
                    lend!(pfs_remove, *directory, name.as_ptr(), name.len())
                }
                Call::Bitmap { .. } => lend!(pfs_bitmap, bytes.as_mut_ptr(), bytes.len()),
                Call::BitmapDiffers { bitmap } => {
                    lend!(pfs_bitmap_differs, bitmap.as_ptr(), bitmap.len(), difference.as_mut_ptr())
                }
                Call::Find { directory, name } => {
                    lend!(pfs_find, *directory, name.as_ptr(), name.len(), entry.as_mut_ptr())
                }
                Call::Label => lend!(pfs_label, label.as_mut_ptr()),
                Call::Report { .. } => lend!(pfs_report, totals.as_mut_ptr(), disk.as_mut_ptr()),
                Call::SafeMake { directory, kind, name, comment, stamp, protection, .. } => lend_safely!(
                    pfs_safe_make,
                    *directory,
                    *kind,
                    name.as_ptr(),
                    name.len(),
                    comment.as_ptr(),
                    comment.len(),
                    stamp.day,
                    stamp.minute,
                    stamp.tick,
                    *protection
                ),
                Call::SafeResize { directory, name, size, .. } => {
                    lend_safely!(pfs_safe_resize, *directory, name.as_ptr(), name.len(), *size)
                }
                Call::SafeWrite { directory, name, offset, data, .. } => {
                    let (from, length) = (data.as_ptr(), data.len());
                    lend_safely!(pfs_safe_write, *directory, name.as_ptr(), name.len(), *offset, from, length)
                }
                Call::SafeRemove { directory, name, .. } => {
                    lend_safely!(pfs_safe_remove, *directory, name.as_ptr(), name.len())
                }
            }
        }
    }
}

impl Converter for Proved {
    fn answer(conversion: Conversion, file: &[u8], out: &mut [u8], fields: &mut [u32; 2]) -> u32 {
        let call = match conversion {
            Conversion::Widen => c::pfs_widen,
            Conversion::Narrow => c::pfs_narrow,
        };
        // SAFETY: the slices are handed on as pointer and length, there are two fields, and the borrows say that
        // nothing that is written shares a byte with the rest.
        unsafe { call(file.as_ptr(), file.len(), out.as_mut_ptr(), out.len(), fields.as_mut_ptr()) }
    }
}

/// A call with both images and their tables lent to it.
macro_rules! lend_two {
    ($name:ident, $first:ident, $second:ident $(, $argument:expr)*) => {
        // SAFETY: the slices are handed on as pointer and length, and the fields have the lengths that `pfs.h` asks. The
        // borrows say that nothing that is written shares a byte with the rest.
        unsafe {
            c::$name(
                $first.image.as_ptr(),
                $first.image.len(),
                $first.blocks.as_mut_ptr(),
                $first.blocks.len(),
                $first.anodes.as_mut_ptr(),
                $first.anodes.len(),
                $second.image.as_ptr(),
                $second.image.len(),
                $second.blocks.as_mut_ptr(),
                $second.blocks.len(),
                $second.anodes.as_mut_ptr(),
                $second.anodes.len()
                $(, $argument)*
            )
        }
    };
}

impl Comparer for Proved {
    fn compare(first: Lent, second: Lent, place: u64, fields: &mut [u32; 1 + NUMBERS]) -> u32 {
        lend_two!(pfs_compare, first, second, place, fields.as_mut_ptr())
    }

    fn differences(first: Lent, second: Lent, place: u64, out: &mut [u32], fields: &mut [u32; 2]) -> u32 {
        lend_two!(pfs_differences, first, second, place, out.as_mut_ptr(), out.len(), fields.as_mut_ptr())
    }
}
