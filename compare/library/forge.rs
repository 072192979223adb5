//! Makes forged panels, every exported call on each, and counts the promises that are broken.
use crate::blocks::recorded;
use crate::calls::Numbers;
use crate::cells;
use crate::chance::Chance;
use crate::cursor;
use crate::forging::{Forged, Sheets, KINDS};
use crate::histories;
use crate::lent::{ITEMS, RUN, TEXT};
use crate::palgwern::Grid;
use crate::planted::{self, FAULTS};
use crate::promises::{self, Promises};
use crate::runs;
use crate::trials;
use std::collections::BTreeMap;
use std::io::BufReader;
use std::sync::atomic::{AtomicU64, Ordering};
use std::time::Duration;

/// Broken promises that are shown.
const SHOWN: u64 = 20;
/// Seconds after which a call is said not to end.
const PATIENCE: u64 = 120;
/// Calls of each panel, by name; those that look at the tables are made more often.
const CALLS: [&str; 34] = [
    "read_sheet", "display_sheet", "enter_name", "enter_name", "explicit_size", "line_count", "record_count", "resolve_placement", "resolve_placement",
    "resolve_placement", "resolve_placement", "line_name", "line_name", "line_name", "line_name", "records", "records",
    "resolve_placements", "line_names", "nearest_line", "placements_within", "placements_within", "placements_around", "placements_around",
    "least_resize", "place_cells", "place_cells", "try_name", "try_name",
    "edit", "edit", "edit_name", "recall", "recall",
];
static CALLS_MADE: AtomicU64 = AtomicU64::new(0);

/// How often each was made or refused, and the promises broken.
#[derive(Default)]
struct Totals {
    counts: BTreeMap<String, u64>,
    calls: u64,
    broken: u64,
    /// How many broken promises are printed.
    shown: u64,
}

fn list(lists: &str, name: &str) -> Vec<(Vec<u8>, Vec<crate::blocks::Call>)> {
    let path = format!("{lists}/{name}.txt");
    recorded(BufReader::new(std::fs::File::open(&path).unwrap_or_else(|_| panic!("no list {path}"))))
}

/// Ends the program where a call does not end.
fn watch() {
    let mut last = u64::MAX;
    loop {
        std::thread::sleep(Duration::from_secs(PATIENCE));
        let now = CALLS_MADE.load(Ordering::Relaxed);
        if now == last {
            println!("broken: call {now} did not end in {PATIENCE} seconds");
            std::process::exit(1);
        }
        last = now;
    }
}

/// Numbers that a call can answer, mostly, and others.
fn numbers(chance: &mut Chance, grid: Grid, call: &str) -> Numbers {
    let axis = if chance.once_in(8) { chance.count() } else { chance.below(2) as u32 };
    let line = if chance.once_in(3) { chance.count() } else { chance.below(12) as u32 };
    let held = match call {
        "resolve_placement" | "resolve_placements" => grid.placements.clamp(1, 512) as usize,
        "line_name" | "try_name" => 2,
        _ => 24,
    };
    let place = if chance.once_in(5) { chance.count() } else { chance.below(held) as u32 };
    Numbers { axis, line, place }
}

fn a_name(chance: &mut Chance) -> Vec<u8> {
    match chance.below(6) {
        0 => chance.bytes(8),
        1 => vec![b'n'; chance.pick(&[0, 31, 33, 4_000])],
        2 => vec![b'm'; 32],
        _ => chance.pick::<&[u8]>(&[b"a", b"x", b"a-start", b"x-end", b"!", b"~"]).to_vec(),
    }
}

fn a_sheet(chance: &mut Chance, sheets: &Sheets) -> Vec<u8> {
    match chance.below(8) {
        0 => chance.bytes(40),
        1 => vec![b'\n'; chance.pick(&[0, 1, 32_768, 32_769, 70_000])],
        2..5 => sheets.refused[chance.below(sheets.refused.len())].0.clone(),
        _ => sheets.accepted[chance.below(sheets.accepted.len())].0.clone(),
    }
}

/// Items and words for records, of lengths around those that are needed.
fn lend_records(chance: &mut Chance, forged: &mut Forged, numbers: Numbers) {
    let tracks = promises::tracks(forged.state.grid, numbers).min(70_000) as usize;
    let items = chance.pick(&[tracks, tracks, tracks, tracks + 1, tracks.saturating_sub(1), 0, 30_000]);
    let most = if chance.once_in(12) { 180_003 } else { 400 };
    let words = chance.pick(&[0, 1, 2, 3, 4, 5, 30, 31, 6 * tracks + 3, 6 * tracks + 2, 6 * tracks + 4]).min(most);
    let items = (0..items).map(|_| chance.pick(&[0, 1, 0xff])).collect::<Vec<u8>>();
    forged.lent.bytes[ITEMS].fill_with(&items);
    forged.lent.words[RUN].fill_with(&vec![0x7777_7777_7777_7777; words]);
}

fn lend(call: &str, chance: &mut Chance, sheets: &Sheets, forged: &mut Forged, numbers: Numbers) {
    match call {
        "read_sheet" | "display_sheet" => forged.lent.bytes[TEXT].fill_with(&a_sheet(chance, sheets)),
        "enter_name" => forged.lent.bytes[TEXT].fill_with(&a_name(chance)),
        "try_name" => {
            forged.lent.bytes[TEXT].fill_with(&a_name(chance));
            trials::lend_answers(&mut forged.lent);
        }
        "edit" | "edit_name" | "recall" => {
            let sheet = if chance.once_in(4) { a_sheet(chance, sheets) } else { sheets.accepted[chance.below(sheets.accepted.len())].0.clone() };
            histories::lend(chance, &mut forged.lent, &sheet);
            if call == "edit_name" {
                forged.lent.bytes[TEXT].fill_with(&a_name(chance));
            }
        }
        "records" => lend_records(chance, forged, numbers),
        "place_cells" => cells::lend_lands(&mut forged.lent),
        "resolve_placements" | "line_names" => runs::lend_run(call, &mut forged.lent),
        "nearest_line" | "placements_within" | "placements_around" => {
            lend_records(chance, forged, numbers);
            cursor::lend_hits(&mut forged.lent);
        }
        _ => (),
    }
}

/// One call: the number that it was refused by, and its promises.
fn make(call: &str, forged: &Forged, numbers: Numbers) -> (u32, Promises) {
    let Forged { state, lent } = forged;
    match call {
        "read_sheet" => promises::read_sheet(lent),
        "display_sheet" => promises::display_sheet(lent),
        "enter_name" => promises::enter_name(lent, *state, numbers),
        "explicit_size" => promises::explicit_size(state.grid, numbers),
        "line_count" => promises::line_count(state.grid, numbers),
        "record_count" => promises::record_count(state.grid, numbers),
        "resolve_placement" => promises::resolve_placement(lent, state.grid, numbers),
        "line_name" => promises::line_name(lent, state.grid, numbers),
        "resolve_placements" => runs::resolve_placements(lent, state.grid, numbers),
        "line_names" => runs::line_names(lent, state.grid, numbers),
        "least_resize" => promises::least_resize(lent, state.grid, numbers),
        "place_cells" => cells::placed(lent, state.grid, numbers),
        "try_name" => trials::tried(lent, *state, numbers),
        "edit" => histories::edited(lent, *state),
        "edit_name" => histories::name_edited(lent, *state, numbers),
        "recall" => histories::recalled(lent, *state),
        "nearest_line" => cursor::nearest(lent, state.grid, cursor::numbers(call, numbers)),
        "placements_within" => cursor::within(lent, state.grid, cursor::numbers(call, numbers)),
        "placements_around" => cursor::around(lent, state.grid, cursor::numbers(call, numbers)),
        _ => promises::records(lent, state.grid, numbers),
    }
}

impl Totals {
    fn count(&mut self, what: String) {
        *self.counts.entry(what).or_default() += 1;
    }

    /// One call on a forged panel, with what it was.
    fn add(&mut self, what: &str, call: &str, numbers: Numbers, (number, kept): (u32, Promises)) {
        self.calls += 1;
        self.count(format!("{call} {}", if number == 0 { "answered".to_string() } else { format!("refused {number}") }));
        for (promise, _) in kept.iter().filter(|(_, kept)| !kept) {
            self.broken += 1;
            if self.broken <= self.shown {
                println!("broken: {promise}: {call} {numbers:?} refused {number}, {what}");
            }
        }
    }
}

/// One forged panel with every call.
fn forge(totals: &mut Totals, sheets: &Sheets, seed: u64, number: u64) {
    let mut chance = Chance::new(seed, number);
    let (kind, forging) = KINDS[chance.pick(&[0, 1, 1, 2, 3, 4, 4, 4, 4, 4, 4, 5, 5, 6, 6])];
    let mut forged = forging(&mut chance, sheets);
    totals.count(format!("panel: {kind}"));
    for call in CALLS {
        let numbers = numbers(&mut chance, forged.state.grid, call);
        lend(call, &mut chance, sheets, &mut forged, numbers);
        totals.add(&format!("panel {number} ({kind})"), call, numbers, make(call, &forged, numbers));
        CALLS_MADE.fetch_add(1, Ordering::Relaxed);
    }
}

fn sheets(lists: &str) -> Sheets {
    std::thread::spawn(watch);
    Sheets { accepted: [list(lists, "accepted"), list(lists, "entries"), list(lists, "cells")].concat(), refused: list(lists, "refused") }
}

/// Forges so many panels from a seed: the number of broken promises.
pub fn run(lists: &str, count: u64, seed: u64) -> u64 {
    let sheets = sheets(lists);
    let mut totals = Totals { shown: SHOWN, ..Totals::default() };
    (0..count).for_each(|number| forge(&mut totals, &sheets, seed, number));
    for (what, times) in &totals.counts {
        println!("{times:8} {what}");
    }
    println!("{} forged calls, {} broken promises", totals.calls, totals.broken);
    totals.broken
}

/// Plants each fault in turn, in at most so many panels: the number of faults that are not found.
pub fn run_planted(lists: &str, count: u64, seed: u64) -> u64 {
    let sheets = sheets(lists);
    let mut missed = 0;
    for (fault, what) in FAULTS.iter().enumerate() {
        planted::plant(fault + 1);
        let mut totals = Totals { shown: 1, ..Totals::default() };
        let found = (0..count).find(|&number| {
            forge(&mut totals, &sheets, seed, number);
            totals.broken > 0
        });
        println!("{} | {what}", found.map_or("NOT FOUND".to_string(), |number| format!("found at panel {number}")));
        missed += u64::from(found.is_none());
    }
    println!("{} planted faults, {missed} not found", FAULTS.len());
    missed
}
