//! Stand-in for the crate root, and the program: the proved library and the unchanged Rust on the same panels, first checked to
//! answer alike, then timed stage by stage.
#![allow(dead_code, unused_imports, unreachable_pub, unpredictable_function_pointer_comparisons)]

mod answers;
mod arguments;
mod cells;
mod compute;
mod cursor;
mod geometry;
mod history;
mod ours;
mod palgwern;
mod panels;
mod sheet;
mod style;
mod style_helpers;
mod table;
mod template;
mod timing;
mod trial;
mod util;

pub(crate) use geometry::*;
pub(crate) use style::*;
pub(crate) use util::sys;

/// Stand-in for the crate's prelude.
pub(crate) mod prelude {
    pub(crate) use crate::style_helpers::*;
}

use compute::grid::panel::theirs::Theirs;
use ours::Ours;
use panels::Sheet;
use table::Row;
use timing::pair;

const STAGES: [&str; 5] = ["sizes", "names", "placements", "records", "line names"];
/// What is timed beside the stages.
const PARTS: [&str; 7] = ["reading", "templates", "cursor", "cells", "trials", "history", "arguments"];
const GROWTH: [&str; 4] = ["small", "medium", "large, 16 names", "large, 1,440 names"];

/// Both sides of a sheet, after they were seen to answer alike; ends the program where they do not.
fn both(sheet: &Sheet) -> (Ours, Theirs) {
    let mut ours = Ours::new(&sheet.text, &panels::nameless(&sheet.text));
    let mut theirs = Theirs::new(&sheet.text);
    let answers = theirs.answers();
    for (how, own) in [("read", ours.answers()), ("with its names entered by calls", ours.entered_answers())] {
        if let Some(stage) = answers.difference(&own) {
            eprintln!("the panel `{}`, {how}, does not answer alike: {stage}", sheet.panel);
            std::process::exit(1);
        }
    }
    (ours, theirs)
}

/// Each wanted stage of a panel that has items, alone.
fn stages(sheet: &Sheet, wanted: &[&'static str]) -> Vec<Row> {
    let (mut ours, mut theirs) = both(sheet);
    let counts = [2, ours.entry_count(), theirs.placement_count(), ours.record_count(), ours.entry_count()];
    let mut rows = Vec::new();
    for (stage, items) in STAGES.into_iter().zip(counts).filter(|(stage, items)| *items > 0 && wanted.contains(stage)) {
        let (our_time, their_time) = match stage {
            "sizes" => pair(|| ours.sizes(), || theirs.sizes()),
            "names" => pair(|| ours.names(), || theirs.names()),
            "placements" => pair(|| ours.placements(), || theirs.placements()),
            "records" => pair(|| ours.records(), || theirs.records()),
            _ => pair(|| ours.line_names(), || theirs.line_names()),
        };
        rows.push(Row { panel: sheet.panel, stage, items, ours: our_time, theirs: their_time });
    }
    rows
}

/// The reading of a sheet, beside what the Rust does of it with a style at hand: sizes and names.
fn reading(sheet: &Sheet) {
    let (mut ours, theirs) = both(sheet);
    let (read, worked) = pair(|| ours.read(&sheet.text), || (theirs.sizes(), theirs.names()));
    let (lines, bytes) = (sheet.text.lines().count(), sheet.text.len());
    let (each, lines, bytes) = (table::number(read / bytes as f64), table::grouped(lines), table::grouped(bytes));
    println!("| {} | {lines} | {bytes} | {} | {each} | {} |", sheet.panel, table::time(read), table::time(worked));
}

/// Each stage, and what only together says all: the Rust fills its maps with the names and only looks into them for placements.
fn groups(wanted: &[&'static str]) -> Vec<(&'static str, Vec<&'static str>)> {
    let alone = STAGES.map(|stage| (stage, vec![stage]));
    let together = [("names and placements", vec!["names", "placements"]), ("all five", STAGES.to_vec())];
    let all = alone.into_iter().chain(together);
    all.filter(|(_, stages)| stages.iter().all(|stage| wanted.contains(stage))).collect()
}

fn readings(sheets: &[Sheet]) {
    println!("| Sheet | Lines | Bytes | Read | ns a byte | the Rust: sizes and names of a style at hand |");
    println!("|---|---|---|---|---|---|");
    [panels::forty_lines(), panels::longest()].iter().chain(sheets).for_each(reading);
}

/// Every stage, the reading, the templates, the cursor, the cells, the trials, the history and what is given by argument, or those that are named.
fn main() {
    let words: Vec<String> = std::env::args().skip(1).collect();
    if let Some(word) = words.iter().find(|word| !PARTS.contains(&word.as_str()) && !STAGES.contains(&word.as_str())) {
        eprintln!("no bench: no stage is called {word}");
        std::process::exit(2);
    }
    let asked = |part: &str| words.is_empty() || words.iter().any(|word| word == part);
    let wanted: Vec<&'static str> = STAGES.into_iter().filter(|stage| asked(stage)).collect();
    let sheets = panels::all();
    if !wanted.is_empty() {
        let rows: Vec<Row> = sheets.iter().flat_map(|sheet| stages(sheet, &wanted)).collect();
        table::print_stages(&rows);
        println!();
        table::print_growth(&rows, &groups(&wanted), &GROWTH);
        println!();
    }
    if asked("reading") {
        readings(&sheets);
        println!();
    }
    if asked("templates") {
        template::print();
        println!();
    }
    if asked("cursor") {
        cursor::print();
        println!();
    }
    if asked("cells") {
        cells::print();
        println!();
    }
    if asked("trials") {
        trial::print();
        println!();
    }
    if asked("history") {
        history::print();
    }
    if asked("arguments") {
        arguments::print();
    }
}
