//! `df` and `map`: what the blocks of a disk are used for.

use std::io::Write;

use super::arguments::Arguments;
use super::drawing::{BlockMap, Run, USES};
use super::help::JSON;
use super::json::Json;
use super::looks::{anode_fields, write_json};
use super::paths::Path;
use super::store;
use super::{svg, text, Done, Failure};
use crate::anodes::{Anodes, MOST_ANODE_BLOCKS};
use crate::calls::{Library, BLOCK};
use crate::disk::Disk;

/// The blocks in a row of the map.
const WIDTH: usize = 64;

/// The blocks of the disk and who owns them.
fn drawn<L: Library>(arguments: &Arguments) -> Result<BlockMap, Failure> {
    store::look(arguments.operand(0), |disk: &mut Disk<L>| BlockMap::of(disk, arguments.charset()))
}

pub fn df<L: Library>(arguments: &Arguments, out: &mut dyn Write) -> Done {
    let name = arguments.operand(0);
    let map = drawn::<L>(arguments)?;
    let all = map.blocks.len();
    if arguments.has(JSON) {
        let uses = USES.iter().map(|&(used, _, name, _)| (name, map.count(used)));
        let uses = uses.map(|(name, blocks)| {
            let (blocks, bytes) = (blocks.into(), (blocks * BLOCK).into());
            Json::Object(vec![("use", name.into()), ("blocks", blocks), ("bytes", bytes)])
        });
        let disk = text::os(name);
        let mut fields =
            vec![("disk", disk.into()), ("blocks", all.into()), ("uses", Json::List(uses.collect()))];
        fields.extend(anode_fields(&map.anodes));
        return write_json(Json::Object(fields), out);
    }
    writeln!(out, "{:<14}{:>7}{:>11}{:>8}", "", "blocks", "bytes", "share")?;
    let rows = USES.iter().map(|&(used, _, name, _)| (name, map.count(used)));
    for (name, blocks) in rows.chain([("all", all)]) {
        // Percent with one digit behind the point, rounded.
        let share = (blocks * 1_000 + all / 2) / all;
        writeln!(out, "{name:<14}{blocks:>7}{:>11}{:>5}.{}%", blocks * BLOCK, share / 10, share % 10)?;
    }
    write_anodes(&map.anodes, out)
}

/// How many anodes there are and how many more can come, with the blocks that hold them.
fn write_anodes(anodes: &Anodes, out: &mut dyn Write) -> Done {
    writeln!(out, "\n{:<14}{:>7}", "", "anodes")?;
    writeln!(out, "{:<14}{:>7}", "in use", anodes.in_use)?;
    writeln!(out, "{:<14}{:>7}", "free", anodes.free)?;
    let (existing, blocks) = (anodes.existing(), anodes.blocks);
    writeln!(out, "{:<14}{existing:>7} in {blocks} of {MOST_ANODE_BLOCKS} anode blocks", "all")?;
    Ok(writeln!(out, "{:<14}{:>7} in {} more", "to come", anodes.to_come(), anodes.more_blocks)?)
}

pub fn map<L: Library>(arguments: &Arguments, out: &mut dyn Write) -> Done {
    if ["--svg", "--owners", JSON].iter().filter(|flag| arguments.has(flag)).count() > 1 {
        return Err(arguments.trouble("one of --svg, --owners and --json"));
    }
    let name = arguments.operand(0);
    let map = drawn::<L>(arguments)?;
    if arguments.has(JSON) {
        return write_json(object(text::os(name), &map), out);
    }
    if arguments.has("--svg") {
        return Ok(out.write_all(svg::picture(&map).as_bytes())?);
    }
    if arguments.has("--owners") {
        return Ok(out.write_all(map.owners().as_bytes())?);
    }
    out.write_all(map.text(WIDTH).as_bytes())?;
    for (used, letter, name, _) in USES {
        writeln!(out, "{letter} {name} {}", map.count(used))?;
    }
    Ok(writeln!(out, "| behind last reserved {}", map.last_reserved)?)
}

/// The runs of blocks with their owners, for programs.
fn object(disk: String, map: &BlockMap) -> Json {
    let run = |run: Run| {
        Json::Object(vec![
            ("first", run.start.into()),
            ("last", (run.start + run.count - 1).into()),
            ("use", run.used.name().into()),
            ("path", map.path(&run).map(Path::text).into()),
        ])
    };
    let runs = map.runs(usize::MAX).into_iter().map(run).collect();
    Json::Object(vec![
        ("disk", disk.into()),
        ("blocks", map.blocks.len().into()),
        ("last_reserved", map.last_reserved.into()),
        ("runs", Json::List(runs)),
    ])
}
