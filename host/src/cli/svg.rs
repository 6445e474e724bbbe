//! The map of a disk as a picture.

use std::collections::HashMap;

use super::drawing::{BlockMap, Run, Use, USES};
use crate::disk::Owner;

/// A block is a square of this many units.
const CELL: usize = 8;
/// Room on every side.
const MARGIN: usize = 8;
/// The colours of files, in turn, so that each is told from the next. They are shades of the one in the legend.
const SHADES: [&str; 5] = ["#4c78a8", "#86aed6", "#2f5580", "#6f9fd0", "#a9c6e3"];

/// Where things are in the picture.
struct Layout {
    /// The blocks in a row.
    width: usize,
    rows: usize,
    /// How large letters are; a large picture is mostly looked at from afar.
    unit: usize,
    /// Where the blocks begin: below title, legend and column numbers, and beside the row numbers.
    top: usize,
    left: usize,
}

impl Layout {
    fn of(blocks: usize) -> Self {
        let (width, unit) = if blocks <= 4_096 { (64, 1) } else { (256, 3) };
        Layout { width, rows: blocks.div_ceil(width), unit, top: 74 * unit, left: 42 * unit }
    }

    /// Where a block is.
    fn place(&self, block: usize) -> (usize, usize) {
        (self.left + block % self.width * CELL, self.top + block / self.width * CELL)
    }

    /// Where something of the legend is.
    fn legend(&self, place: usize) -> (usize, usize) {
        (place % 4 * 130 * self.unit, (22 + place / 4 * 15) * self.unit)
    }
}

/// The picture. Each run of blocks names its owner when it is pointed at.
pub fn picture(map: &BlockMap) -> String {
    let layout = Layout::of(map.blocks.len());
    let across = layout.left + layout.width * CELL + 2 * MARGIN;
    let down = layout.top + layout.rows * CELL + 2 * MARGIN;
    let (letters, title) = (10 * layout.unit, 14 * layout.unit);
    let mut svg = format!("<svg xmlns=\"http://www.w3.org/2000/svg\" viewBox=\"-{MARGIN} -{MARGIN} {across} {down}\" width=\"{across}\" height=\"{down}\" font-family=\"sans-serif\" font-size=\"{letters}\">\n");
    svg += &format!(
        "<rect x=\"-{MARGIN}\" y=\"-{MARGIN}\" width=\"{across}\" height=\"{down}\" fill=\"#ffffff\"/>\n"
    );
    svg += &format!(
        "<text x=\"0\" y=\"{}\" font-size=\"{title}\" font-weight=\"bold\">{}</text>\n",
        12 * layout.unit,
        escaped(&map.title)
    );
    svg += &legend(map, &layout);
    svg += &scales(&layout);
    let owners = Owners::of(map);
    for run in map.runs(layout.width) {
        svg += &rectangle(map, &owners, &run, &layout);
    }
    svg += &boundary(usize::from(map.last_reserved) + 1, &layout);
    svg + "</svg>\n"
}

/// A square of each colour with its name and count, and the boundary's line, in two rows of four.
fn legend(map: &BlockMap, layout: &Layout) -> String {
    let (mut legend, unit) = (String::new(), layout.unit);
    for (place, (used, _, name, colour)) in USES.iter().enumerate() {
        let (x, y) = layout.legend(place);
        let side = 10 * unit;
        legend += &format!("<rect x=\"{x}\" y=\"{y}\" width=\"{side}\" height=\"{side}\" fill=\"{colour}\" stroke=\"#888888\" stroke-width=\"0.5\"/>");
        legend += &format!(
            "<text x=\"{}\" y=\"{}\">{name} {}</text>\n",
            x + 14 * unit,
            y + 9 * unit,
            map.count(*used)
        );
    }
    let (x, y) = layout.legend(USES.len());
    legend +=
        &format!("<path d=\"M{x} {} h{}\" stroke=\"#000000\" stroke-width=\"2\"/>", y + 5 * unit, 10 * unit);
    legend += &format!(
        "<text x=\"{}\" y=\"{}\">last reserved {}</text>\n",
        x + 14 * unit,
        y + 9 * unit,
        map.last_reserved
    );
    legend
}

/// The number of the first block of some rows, and how far it is from there to some columns.
fn scales(layout: &Layout) -> String {
    let Layout { width, rows, unit, top, left } = *layout;
    let mut scales = format!("<g fill=\"#555555\" font-size=\"{}\">\n", 8 * unit);
    for row in (0..rows).step_by(2 * unit) {
        let y = top + row * CELL + (CELL + 6 * unit) / 2;
        scales += &format!(
            "<text x=\"{}\" y=\"{y}\" text-anchor=\"end\">{}</text>\n",
            left - 4 * unit,
            row * width
        );
    }
    for column in (0..width).step_by(width / 8) {
        scales +=
            &format!("<text x=\"{}\" y=\"{}\">+{column}</text>\n", left + column * CELL, top - 4 * unit);
    }
    scales + "</g>\n"
}

/// The runs of each file and directory, and the order of the files on the disk.
struct Owners {
    /// Where each run of an owner begins, and where it ends.
    runs: HashMap<u16, Vec<(usize, usize)>>,
    files: HashMap<u16, usize>,
}

impl Owners {
    fn of(map: &BlockMap) -> Self {
        let mut owners = Owners { runs: HashMap::new(), files: HashMap::new() };
        for run in map.runs(usize::MAX) {
            let Owner::Entry(head) = run.owner else {
                continue;
            };
            owners.runs.entry(head).or_default().push((run.start, run.start + run.count));
            let next = owners.files.len();
            if run.used == Use::File {
                owners.files.entry(head).or_insert(next);
            }
        }
        owners
    }

    fn colour(&self, run: &Run) -> &'static str {
        match run.owner {
            Owner::Entry(head) => {
                self.files.get(&head).map_or(run.used.colour(), |place| SHADES[place % SHADES.len()])
            }
            _ => run.used.colour(),
        }
    }

    /// Which of its owner's runs it is, if there are several.
    fn place(&self, run: &Run) -> String {
        let Owner::Entry(head) = run.owner else {
            return String::new();
        };
        let runs = self.runs.get(&head).map_or(&[][..], Vec::as_slice);
        match runs.iter().position(|(start, end)| (*start..*end).contains(&run.start)) {
            Some(place) if runs.len() > 1 => format!(", run {} of {}", place + 1, runs.len()),
            _ => String::new(),
        }
    }
}

fn rectangle(map: &BlockMap, owners: &Owners, run: &Run, layout: &Layout) -> String {
    let (x, y) = layout.place(run.start);
    let blocks = match run.count {
        1 => run.start.to_string(),
        count => format!("{} to {}", run.start, run.start + count - 1),
    };
    format!(
        "<rect x=\"{x}\" y=\"{y}\" width=\"{}\" height=\"{CELL}\" fill=\"{}\" stroke=\"#ffffff\" stroke-width=\"1\"><title>{blocks}: {}{}</title></rect>\n",
        run.count * CELL,
        owners.colour(run),
        escaped(&map.owner(run)),
        owners.place(run),
    )
}

/// A line before a block: along the top of the rest of its row and, if the row has blocks before it, down and below
/// these.
fn boundary(block: usize, layout: &Layout) -> String {
    let ((x, y), left) = (layout.place(block), layout.left);
    let before = if x == left { String::new() } else { format!(" V{} H{left}", y + CELL) };
    format!(
        "<path d=\"M{} {y} H{x}{before}\" fill=\"none\" stroke=\"#000000\" stroke-width=\"{}\"><title>behind last reserved</title></path>\n",
        left + layout.width * CELL,
        1 + layout.unit,
    )
}

fn escaped(text: &str) -> String {
    text.replace('&', "&amp;").replace('<', "&lt;").replace('>', "&gt;")
}
