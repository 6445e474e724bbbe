//! The proved bitmap against the model, on disks whose blocks behind last reserved fill no, one, two or nine bitmap blocks:
//! buffers of every length near the right one, and bitmaps that differ in any byte.

use ovenknit_host::bitmap::{length, BITMAP_BLOCK};
use ovenknit_host::calls::{Call, BLOCK, UNREAD};
use ovenknit_host::compare::{compare, junk_tables};
use ovenknit_host::disk::{Disk, Format};
use ovenknit_host::ffi::Proved;
use ovenknit_host::model::Model;
use ovenknit_host::rng::{seeded, Rng};
use ovenknit_host::starts::Start;

/// Makes a call on both libraries; the image stays.
fn call(call: &Call, image: &[u8], rng: &mut Rng) -> (u32, Vec<u8>, [u32; 2]) {
    let mut lent = image.to_vec();
    let (mut blocks, mut anodes) = junk_tables(image.len() / BLOCK, false, rng);
    let outcome = compare::<Proved>(call, &mut lent, &mut blocks, &mut anodes);
    assert_eq!(lent, image);
    (outcome.answer, outcome.output.bytes, outcome.output.difference)
}

/// The bitmap of a sound disk, made, held to 40 in buffers that do not fit, and compared with copies of it.
fn try_disk(image: &[u8], rng: &mut Rng) -> Vec<u8> {
    let label = Disk::<Model>::new(image.to_vec()).label().expect("the disk is sound");
    let needed = length(image.len() / BLOCK, label.last_reserved);
    let (answer, bitmap, _) = call(&Call::Bitmap { length: needed }, image, rng);
    assert_eq!(answer, 0);
    for length in [needed + 1, needed.saturating_sub(1), needed + BITMAP_BLOCK, needed / 2] {
        if length != needed {
            let (answer, left, _) = call(&Call::Bitmap { length }, image, rng);
            assert_eq!((answer, left), (40, vec![UNREAD; length]));
            let differs = call(&Call::BitmapDiffers { bitmap: vec![0; length] }, image, rng);
            assert_eq!((differs.0, differs.2), (40, [0, 0]));
        }
    }
    let same = call(&Call::BitmapDiffers { bitmap: bitmap.clone() }, image, rng);
    assert_eq!((same.0, same.2), (0, [0, 0]));
    for _ in 0..if bitmap.is_empty() { 0 } else { 6 } {
        let mut other = bitmap.clone();
        let [first, second] = [rng.below(other.len()), rng.below(other.len())];
        other[first] ^= 1 << rng.below(8);
        if second != first {
            other[second] ^= 1 << rng.below(8);
        }
        let differs = call(&Call::BitmapDiffers { bitmap: other }, image, rng);
        assert_eq!((differs.0, differs.2), (0, [1, first.min(second) as u32]));
    }
    bitmap
}

#[test]
fn bitmaps_of_random_disks() {
    for mut seeded in seeded("bitmaps", 0..60) {
        for start in Start::SMALL {
            try_disk(&start.disk(&mut seeded.rng).image, &mut seeded.rng);
        }
    }
    let rng = &mut Rng::new(7);
    try_disk(&Start::Larger.disk(rng).image, rng);
    try_disk(&Start::Largest.disk(rng).image, rng);
}

/// 8,096 blocks behind last reserved need one bitmap block, 8,097 two; none needs none.
#[test]
fn bitmaps_at_the_edges() {
    let rng = &mut Rng::new(3);
    for (blocks, last_reserved, bitmap_blocks) in [
        (5, 4, 0),
        (6, 4, 1),
        (8_100, 4, 1),
        (8_101, 4, 1),
        (8_102, 4, 2),
        (16_197, 4, 2),
        (16_198, 4, 3),
        (65_535, 4, 9),
    ] {
        let disk =
            Disk::<Model>::format(blocks, &Format::new(last_reserved, 1, b"edge")).expect("it can be made");
        let bitmap = try_disk(disk.image(), rng);
        assert_eq!(bitmap.len(), bitmap_blocks * BITMAP_BLOCK);
        let set: u32 =
            bitmap.chunks(BITMAP_BLOCK).flat_map(|block| &block[12..]).map(|byte| byte.count_ones()).sum();
        assert_eq!(set as usize, blocks - 5);
    }
}

/// The first bit is the highest of the first longword and speaks of the block behind last reserved.
#[test]
fn the_first_bits() {
    let rng = &mut Rng::new(4);
    let mut disk = Disk::<Model>::format(40, &Format::new(9, 1, b"D")).expect("it can be made");
    let new = ovenknit_host::disk::New::file(b"a");
    disk.make(5, &new).and_then(|()| disk.resize(5, b"a", 512)).expect("there is room");
    let bitmap = try_disk(disk.image(), rng);
    let mut expected = vec![0; BITMAP_BLOCK];
    expected[..2].copy_from_slice(b"BM");
    // Block 10 is the file's, 11 to 39 are free.
    expected[12..16].copy_from_slice(&0x7FFF_FFFCu32.to_be_bytes());
    assert_eq!(bitmap, expected);
}

#[test]
fn damage_comes_before_40() {
    let rng = &mut Rng::new(5);
    let mut image = Start::Formatted.disk(rng).image;
    image[2 * BLOCK] = 0;
    let (answer, left, _) = call(&Call::Bitmap { length: 3 }, &image, rng);
    assert_eq!((answer, left), (3, vec![UNREAD; 3]));
    let differs = call(&Call::BitmapDiffers { bitmap: vec![1] }, &image, rng);
    assert_eq!((differs.0, differs.2), (3, [0, 0]));
}
