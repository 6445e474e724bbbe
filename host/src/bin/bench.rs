//! Times the proved library against the model: the same process, the same buffers, the two in turn. Prints medians in
//! microseconds and ratios: first the check, then each call with its ratio to the model's same call and to one proved
//! check of the same image. With the argument `least`, prints the least time of many checks, so that two libraries can be
//! compared. Run it with `--release --features proved`.

use std::env;
use std::hint::black_box;
use std::process::ExitCode;
use std::time::{Duration, Instant};

use ovenknit_host::calls::{
    run, tables, Call, Lent, Library, Output, Stamp, BLOCK, BLOCK_WRITE, FILE, ROOT, TOTALS,
};
use ovenknit_host::differences::{Comparer, NUMBERS};
use ovenknit_host::disk;
use ovenknit_host::ffi::Proved;
use ovenknit_host::model::Model;
use ovenknit_host::rng::Rng;
use ovenknit_host::shapes::{grown_in_turn, no_free_anode, one_free_anode, shaped, Recipe, LONG_FILE};

const RUNS: usize = 1_001;
/// Of a change that may take as long as thousands of checks, by the library or by the model.
const LONG_RUNS: usize = 101;
/// Of a comparison of all bytes of two large disks.
const COMPARISONS: usize = 51;
/// As many entries as two disks can have.
const MOST_DIFFERENCES: usize = 6_876;
/// Of a check that takes as long as a thousand others.
const SLOW_RUNS: usize = 11;
/// The block writes of a safe call on a file of few blocks, and more.
const MOST_WRITES: usize = 64;
/// Of a check whose least time is asked for.
const LEAST_RUNS: usize = 10_001;
/// A file in the root of every disk that the calls are timed on.
const NAME: &[u8] = b"bench";
const SIZE: u64 = 1_000;

/// A disk with the tables that its calls are lent.
struct Disk {
    image: Vec<u8>,
    blocks: Vec<u16>,
    anodes: Vec<u16>,
}

impl Disk {
    fn new(image: Vec<u8>) -> Self {
        let (blocks, anodes) = tables(&image);
        Disk { image, blocks, anodes }
    }

    fn empty(blocks: usize, last_reserved: u16, anode_blocks: u16) -> Self {
        let mut disk = Disk::new(vec![0; blocks * BLOCK]);
        let (name, stamp) = (NAME.to_vec(), Stamp::default());
        disk.must(&Call::Format { last_reserved, anode_blocks, name, stamp, protection: 0 });
        disk
    }

    /// The same disk with a file of two blocks in its root.
    fn with_file(mut self) -> Self {
        self.must(&make(NAME));
        self.must(&Call::Resize { directory: ROOT, name: NAME.to_vec(), size: SIZE });
        self
    }

    fn lent(&mut self) -> Lent<'_> {
        Lent { image: &mut self.image, blocks: &mut self.blocks, anodes: &mut self.anodes }
    }

    fn must(&mut self, call: &Call) {
        let outcome = run::<Model>(call, &mut self.image, &mut self.blocks, &mut self.anodes);
        assert_eq!(outcome.answer, 0, "a call of the bench is refused: {}", call.label());
    }

    /// The blocks that a call changes, with their bytes before.
    fn changed_by(&mut self, call: &Call) -> Vec<(usize, Vec<u8>)> {
        let before = self.image.clone();
        self.must(call);
        let pairs = before.chunks(BLOCK).zip(self.image.chunks(BLOCK)).enumerate();
        let changed = pairs.filter(|(_, (old, new))| old != new);
        let changed = changed.map(|(number, (old, _))| (number * BLOCK, old.to_vec())).collect();
        self.image = before;
        changed
    }

    fn time<L: Library>(&mut self, call: &Call, output: &mut Output) -> Duration {
        let lent = self.lent();
        let start = Instant::now();
        let answer = L::answer(black_box(call), black_box(lent), output);
        let elapsed = start.elapsed();
        assert_eq!(black_box(answer), 0, "a call of the bench is refused: {}", call.label());
        elapsed
    }

    /// The medians of a call on the model and on the proved library and of a proved check, the three in turn, so that
    /// all meet the same load. What the call changed is mended between the runs.
    fn medians(&mut self, call: &Call, runs: usize) -> Medians {
        let changed = self.changed_by(call);
        let mut output = Output::for_call(call);
        let mut unused = Output::for_call(&Call::Check);
        let (mut by_model, mut by_proved, mut by_check) = (Vec::new(), Vec::new(), Vec::new());
        for run in 0..runs {
            // Each goes first a third of the time.
            for turn in [run % 3, (run + 1) % 3, (run + 2) % 3] {
                match turn {
                    0 => by_model.push(self.time::<Model>(call, &mut output)),
                    1 => by_proved.push(self.time::<Proved>(call, &mut output)),
                    _ => by_check.push(self.time::<Proved>(&Call::Check, &mut unused)),
                }
                for (at, bytes) in &changed {
                    self.image[*at..*at + BLOCK].copy_from_slice(bytes);
                }
            }
        }
        Medians { model: median(by_model), proved: median(by_proved), check: median(by_check) }
    }

    /// The least time of a proved check.
    fn least_check(&mut self) -> Duration {
        let mut unused = Output::for_call(&Call::Check);
        let times = (0..LEAST_RUNS).map(|_| self.time::<Proved>(&Call::Check, &mut unused));
        times.min().unwrap_or_default()
    }
}

/// A call that compares two disks.
#[derive(Clone, Copy)]
enum Comparison {
    /// The first difference; 22 where there is none.
    First,
    /// As many as two disks can have.
    All,
}

/// Two disks that are compared.
struct Pair {
    first: Disk,
    second: Disk,
}

impl Pair {
    fn time<C: Comparer>(&mut self, comparison: Comparison, out: &mut [u32]) -> Duration {
        let (first, second) = black_box((self.first.lent(), self.second.lent()));
        let start = Instant::now();
        let answer = match comparison {
            Comparison::First => C::compare(first, second, 0, &mut [0; 1 + NUMBERS]),
            Comparison::All => C::differences(first, second, 0, out, &mut [0; 2]),
        };
        let elapsed = start.elapsed();
        assert!([0, 22].contains(&black_box(answer)), "a disk of the bench is refused");
        elapsed
    }

    /// The medians of a comparison by the model and by the proved library and of a proved check of the first disk, the three
    /// in turn.
    fn medians(&mut self, comparison: Comparison, runs: usize) -> Medians {
        let mut out = vec![0; MOST_DIFFERENCES * NUMBERS];
        let mut unused = Output::for_call(&Call::Check);
        let (mut by_model, mut by_proved, mut by_check) = (Vec::new(), Vec::new(), Vec::new());
        for _ in 0..runs {
            by_model.push(self.time::<Model>(comparison, &mut out));
            by_proved.push(self.time::<Proved>(comparison, &mut out));
            by_check.push(self.first.time::<Proved>(&Call::Check, &mut unused));
        }
        Medians { model: median(by_model), proved: median(by_proved), check: median(by_check) }
    }
}

/// Microseconds.
struct Medians {
    model: f64,
    proved: f64,
    check: f64,
}

impl Medians {
    /// A line of the second table.
    fn print(&self, what: &str) {
        let Medians { model, proved, check } = self;
        println!("  {what:<42} {model:>10.1} {proved:>10.1} {:>9.2} {:>9.2}", proved / model, proved / check);
    }
}

fn microseconds(time: Duration) -> f64 {
    time.as_secs_f64() * 1e6
}

fn median(mut times: Vec<Duration>) -> f64 {
    times.sort_unstable();
    microseconds(times[times.len() / 2])
}

fn make(name: &[u8]) -> Call {
    let (name, comment, stamp) = (name.to_vec(), Vec::new(), Stamp::default());
    Call::Make { directory: ROOT, kind: FILE, name, comment, stamp, protection: 0 }
}

fn measure_check(what: &str, mut disk: Disk) {
    let Medians { model, proved, .. } = disk.medians(&Call::Check, RUNS);
    println!("{what:<44} {model:>10.1} {proved:>10.1} {:>9.2}", proved / model);
}

/// Each call on a disk that has the file, blocks and anodes to spare.
fn measure_calls(what: &str, disk: Disk) {
    let mut disk = disk.with_file();
    let entries = (0..).find(|&place| {
        let call = Call::List { directory: ROOT, place };
        run::<Model>(&call, &mut disk.image, &mut disk.blocks, &mut disk.anodes).answer != 0
    });
    let last = entries.unwrap_or(1) - 1;
    let bitmap = disk::Disk::<Model>::new(disk.image.clone()).bitmap();
    let bitmap = bitmap.expect("a disk of the bench has a bitmap");
    let (directory, name) = (ROOT, NAME.to_vec());
    let calls = [
        ("read 64 bytes", Call::Read { directory, name: name.clone(), offset: 480, length: 64 }),
        ("list the root's last entry", Call::List { directory, place: last }),
        ("find it by name", Call::Find { directory, name: name.clone() }),
        ("the label", Call::Label),
        ("make a file", make(b"new")),
        ("resize by one block", Call::Resize { directory, name: name.clone(), size: SIZE + 512 }),
        ("write 64 bytes", Call::Write { directory, name: name.clone(), offset: 480, data: vec![7; 64] }),
        ("remove a file of two blocks", Call::Remove { directory, name }),
        ("make the bitmap", Call::Bitmap { length: bitmap.len() }),
        ("compare the bitmap", Call::BitmapDiffers { bitmap }),
        ("report", Call::Report { totals: [0; TOTALS] }),
    ];
    println!("{what}");
    for (what, call) in calls {
        disk.medians(&call, RUNS).print(what);
    }
    measure_safe_calls(disk);
}

/// The safe calls on the same disk (02, No. 8). Each copies every anode block besides what it changes.
fn measure_safe_calls(mut disk: Disk) {
    let (directory, name) = (ROOT, NAME.to_vec());
    for (what, change) in [
        ("make a file, safely", make(b"new")),
        ("resize by one block, safely", Call::Resize { directory, name: name.clone(), size: SIZE + 512 }),
        (
            "write 64 bytes, safely",
            Call::Write { directory, name: name.clone(), offset: 480, data: vec![7; 64] },
        ),
        ("remove a file of two blocks, safely", Call::Remove { directory, name }),
    ] {
        let call = change.safely(MOST_WRITES * BLOCK_WRITE).expect("every change has a safe call");
        disk.medians(&call, LONG_RUNS).print(what);
    }
}

/// A long file written anew, safely, and the same bytes copied plainly.
fn measure_long_write() {
    println!("65,535 blocks, a file of 30,000");
    let mut disk = Disk::empty(65_535, 2_000, 42);
    disk.must(&make(NAME));
    disk.must(&Call::Resize { directory: ROOT, name: NAME.to_vec(), size: 30_000 * BLOCK as u64 });
    let write = Call::Write { directory: ROOT, name: NAME.to_vec(), offset: 480, data: vec![7; 64] };
    let room = (30_000 + MOST_WRITES) * BLOCK_WRITE;
    let call = write.safely(room).expect("every change has a safe call");
    disk.medians(&call, SLOW_RUNS).print("write 64 bytes of it, safely");
    let (from, mut to) = (vec![7u8; 30_000 * BLOCK], vec![8u8; 30_000 * BLOCK]);
    let times = (0..SLOW_RUNS).map(|_| {
        let start = Instant::now();
        black_box(&mut to).copy_from_slice(black_box(&from));
        start.elapsed()
    });
    println!("  {:<45} {:>20.1}", "as many bytes as the file has, copied", median(times.collect()));
}

/// A long file in many extents, shrunk and removed (02, No. 3).
fn measure_long_file() {
    println!("65,535 blocks, a file of 62,000 in 1,500 extents");
    let mut disk = Disk::new(grown_in_turn());
    let (directory, name) = (ROOT, LONG_FILE.to_vec());
    for (what, call) in [
        ("shrink it to 200 blocks", Call::Resize { directory, name: name.clone(), size: 200 * BLOCK as u64 }),
        ("remove it", Call::Remove { directory, name }),
    ] {
        disk.medians(&call, LONG_RUNS).print(what);
    }
}

/// A file made where the only free anode is the last of slot 41, and slots 1 to 40 are empty (02, No. 4).
fn measure_far_anode() {
    println!("1,760 blocks, the only free anode in slot 41");
    Disk::new(one_free_anode()).medians(&make(b"new"), RUNS).print("make a file");
}

/// A file made where no anode is free, so that the anode table grows (02, No. 6).
fn measure_growth() {
    println!("1,760 blocks, no anode free, slots 1 to 41 empty");
    Disk::new(no_free_anode()).medians(&make(b"new"), RUNS).print("make a file, and grow");
}

/// The median time of comparing as many bytes as a disk has with those of another in one run of bytes.
fn plain_comparison(pair: &Pair) -> f64 {
    let times = (0..COMPARISONS).map(|_| {
        let (one, other) = black_box((&pair.first.image, &pair.second.image));
        let start = Instant::now();
        assert!(black_box(one == other), "the disks of the bench are the same");
        start.elapsed()
    });
    median(times.collect())
}

/// A disk of small files compared with itself and with an empty one (02, No. 7). Comparing takes a check of each.
fn measure_comparisons(rng: &mut Rng) {
    for (blocks, size) in [(1_760, "1,760"), (65_535, "65,535")] {
        println!("{size} blocks, small files, compared");
        let image = shaped(&small_files(blocks), rng).image;
        let mut itself = Pair { first: Disk::new(image.clone()), second: Disk::new(image.clone()) };
        itself.medians(Comparison::First, COMPARISONS).print("with itself: the first difference");
        itself.medians(Comparison::All, COMPARISONS).print("with itself: all differences");
        println!("  {:<45} {:>20.1}", "as many bytes as the disk has, compared", plain_comparison(&itself));
        let mut other = Pair { first: Disk::new(image), second: Disk::empty(1_760, 63, 2) };
        other.medians(Comparison::First, COMPARISONS).print("with an empty disk: the first difference");
        other.medians(Comparison::All, COMPARISONS).print("with an empty disk: all differences");
    }
}

/// A name that the check's index cannot tell from any other of these without comparing all its bytes up to the last
/// ones: those are pairs that weigh the same in the hash, as often as the bits of the number ask.
fn colliding_name(number: usize) -> Vec<u8> {
    let pairs = (0..12).rev().map(|bit| if number >> bit & 1 == 0 { [128, 192] } else { [129, 161] });
    [vec![b'n'; 83], pairs.flatten().collect()].concat()
}

/// The check of a directory whose names are chosen to collide (02, No. 5).
fn measure_colliding_names() {
    println!("65,535 blocks, 2,500 names of 107 bytes in the root, all of one hash");
    let mut disk = Disk::empty(65_535, 2_000, 42);
    for number in 0..2_500 {
        disk.must(&make(&colliding_name(number)));
    }
    disk.medians(&Call::Check, SLOW_RUNS).print("check");
}

/// Files of some blocks each, with some blocks and anodes free.
fn small_files(blocks: usize) -> Recipe {
    let (files, directories) = ((blocks / 22).min(2_800), (blocks / 550).min(100));
    let slots = (blocks / 500).min(42);
    Recipe { files, directories, cuts: files, slots, free_percent: 10, ..Recipe::small_files(blocks) }
}

/// Many pieces in any order, with some blocks and anodes free.
fn fragmented(blocks: usize) -> Recipe {
    let (files, directories) = ((blocks / 44).min(400), (blocks / 440).min(40));
    let slots = (blocks / 200).min(42);
    let (cuts, empties) = ((blocks / 4).min(2_000), (blocks / 20).min(300));
    Recipe { files, directories, cuts, empties, slots, ..Recipe::fragmented(blocks) }
}

/// The disks that the check is timed on.
fn checked_disks(rng: &mut Rng) -> [(&'static str, Disk); 5] {
    [
        ("1,760 blocks, empty", Disk::empty(1_760, 63, 2)),
        ("65,535 blocks, empty", Disk::empty(65_535, 2_000, 42)),
        ("65,535 blocks, full of small files", Disk::new(shaped(&Recipe::small_files(65_535), rng).image)),
        (
            "65,535 blocks, fragmented, no anode free",
            Disk::new(shaped(&Recipe::fragmented(65_535), rng).image),
        ),
        ("65,535 blocks, 3,250 names in the root", Disk::new(shaped(&Recipe::many_names(65_535), rng).image)),
    ]
}

fn print_all(rng: &mut Rng) {
    println!("{:<44} {:>10} {:>10} {:>9} {:>9}", "disk", "model us", "proved us", "to model", "to check");
    for (what, disk) in checked_disks(rng) {
        measure_check(what, disk);
    }
    for (blocks, size, last_reserved, anode_blocks) in
        [(1_760, "1,760", 63, 2), (65_535, "65,535", 2_000, 42)]
    {
        println!();
        measure_calls(&format!("{size} blocks, empty"), Disk::empty(blocks, last_reserved, anode_blocks));
        let disk = Disk::new(shaped(&small_files(blocks), rng).image);
        measure_calls(&format!("{size} blocks, small files"), disk);
        let disk = Disk::new(shaped(&fragmented(blocks), rng).image);
        measure_calls(&format!("{size} blocks, fragmented"), disk);
    }
    println!();
    measure_long_file();
    measure_long_write();
    measure_far_anode();
    measure_growth();
    measure_comparisons(rng);
    measure_colliding_names();
}

fn print_least(rng: &mut Rng) {
    println!("{:<44} {:>10}", format!("check, least of {LEAST_RUNS}"), "proved us");
    for (what, mut disk) in checked_disks(rng) {
        println!("{what:<44} {:>10.1}", microseconds(disk.least_check()));
    }
}

fn main() -> ExitCode {
    let rng = &mut Rng::new(1);
    let words: Vec<String> = env::args().skip(1).collect();
    match words.iter().map(String::as_str).collect::<Vec<_>>()[..] {
        [] => print_all(rng),
        ["least"] => print_least(rng),
        _ => {
            eprintln!("usage: bench [least]");
            return ExitCode::from(2);
        }
    }
    ExitCode::SUCCESS
}
