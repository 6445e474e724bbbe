//! A disk made, filled and read back by the proved library, from Rust. `demo.c` does the same from C and prints the
//! same lines.
//!
//!     cargo run --offline --features proved --example demo

use ovenknit_host::calls::{Stamp, ROOT};
use ovenknit_host::disk::{Disk, Error, Format, New};
use ovenknit_host::ffi::Proved;

/// What the example prints.
pub fn demo() -> Result<String, Error> {
    let mut lines = String::new();
    let stamp = Stamp::new(17_000, 600, 0);

    let mut disk = Disk::<Proved>::format(1_760, &Format { stamp, ..Format::new(63, 2, b"bench 4") })?;
    disk.make(ROOT, &New { stamp, ..New::directory(b"recipes") })?;
    let recipes = disk.find(ROOT, b"recipes")?.anode;

    let text = b"180 C, 25 min\n";
    disk.make(recipes, &New { stamp, comment: b"white bread", ..New::file(b"pack7") })?;
    disk.resize(recipes, b"pack7", text.len() as u64)?;
    disk.write(recipes, b"pack7", 0, text)?;

    for entry in disk.list(recipes) {
        let entry = entry?;
        let (name, comment) = (String::from_utf8_lossy(&entry.name), String::from_utf8_lossy(&entry.comment));
        lines += &format!("{name}: {} bytes, {comment}\n", entry.size);
    }
    lines += &String::from_utf8_lossy(&disk.read(recipes, b"pack7", 0, text.len())?);

    // More than the disk has: refused, and nothing has changed.
    if let Err(error) = disk.resize(recipes, b"pack7", 1 << 20) {
        lines += &format!("resize: refused by {}\n", error.number());
    }
    let summary = disk.summary()?;
    lines += &format!("{} blocks, {} free\n", summary.blocks, summary.free);

    disk.remove(recipes, b"pack7")?;
    disk.remove(ROOT, b"recipes")?;
    disk.check()?;
    let summary = disk.summary()?;
    lines += &format!("{} blocks, {} free\n", summary.blocks, summary.free);
    Ok(lines)
}

// The tests take this file in as a module, and call only the above.
#[allow(dead_code)]
fn main() -> Result<(), Error> {
    print!("{}", demo()?);
    Ok(())
}
