//! Faults put into the calls one at a time, to show that the tests of the promises find each.
use crate::calls::Numbers;
use crate::lent::*;
use crate::palgwern::{raw, AREA_NAMES_START, PLACEMENT_NUMBERS};
use std::sync::atomic::{AtomicUsize, Ordering};

/// The faults, from 1 on.
pub const FAULTS: [&str; 70] = [
    "a refused sheet changes a word",
    "a word that the tables held reaches the panel",
    "a sheet writes past the words",
    "a short store leaves a number in the refused panel",
    "a sheet writes past a long store",
    "a refused entry gives another panel back",
    "an entry in the rows changes the columns",
    "an entry changes its name",
    "a refused size is not 0",
    "a count differs now and then",
    "a placement changes the table",
    "a refused placement has a kind",
    "a placement reads before a store",
    "a name goes past its store",
    "a name of a short store is not refused",
    "a record too many is written",
    "refused records are written",
    "a record too few is counted",
    "refused records are counted",
    "the first record of a run is another",
    "the last placement of a run is another",
    "a name of a run is another",
    "a sheet writes past the bytes",
    "an entry in the columns changes the rows",
    "an entry changes an area",
    "an entry changes a placement",
    "an entry changes the bytes",
    "placements are written past their run",
    "placements with a short store are not refused",
    "line names are written past their run",
    "line names with a short store are not refused",
    "a track has the source of a gutter",
    "a refused placement has a mark",
    "what is no line has a mark",
    "a pair stands beside another refusal than 12",
    "a pair is numbered from 0",
    "a refused display changes a word",
    "a display refuses areas that share a cell by 12",
    "a display has another grid",
    "a display has no pair",
    "a refused display has a pair",
    "a refused cursor has a line",
    "a cursor outside a length's range is answered",
    "a placement is listed twice",
    "placements are listed on a refusal",
    "a list goes on past its count",
    "a refused resize has a size",
    "a resize beyond the sizes",
    "cells that have no place are counted",
    "a land is written on a refusal",
    "a land past the last row",
    "a line with another refusal than 15",
    "a trial enters its name",
    "a trial that is refused is written",
    "a trial that is refused counts placements",
    "a placement of a trial is another",
    "a land of a trial is another",
    "a trial with a packing that is none is answered",
    "a trial is written past its lands",
    "a trial on a full axis is refused by 10",
    "a refused edit writes its line",
    "a refused edit gives another step back",
    "an edit writes past its line",
    "an edit writes past the lines",
    "an edit skips a step",
    "an edit keeps the later steps",
    "an edit has a pair beside another refusal than 12",
    "a recall writes a line",
    "a recall drops the later steps",
    "a recall gives another panel",
];

/// The fault in place, 0 for none.
static PLANTED: AtomicUsize = AtomicUsize::new(0);
static CALLS: AtomicUsize = AtomicUsize::new(0);

pub fn plant(fault: usize) {
    PLANTED.store(fault, Ordering::Relaxed);
}

fn planted() -> usize {
    PLANTED.load(Ordering::Relaxed)
}

pub fn in_sheet(lent: &mut Lent, held: u64, answer: &mut raw::SheetAnswer) {
    let accepted = answer.number == 0;
    match planted() {
        1 if !accepted => lent.words[PANEL].content_mut()[9_000] ^= 1,
        2 if accepted && held == u64::MAX => answer.panel.grid.areas += 1,
        3 if accepted => lent.words[PANEL].write_past(7),
        4 if answer.number == 10 => answer.panel.room.areabytes = 1,
        5 if accepted && lent.bytes[ROW_STORE].content().len() > STORE_BYTES => lent.bytes[ROW_STORE].write_past(1),
        23 if accepted => lent.bytes[PANEL].write_past(7),
        35 if answer.number == 6 => answer.later = 2,
        36 if answer.number == 12 => answer.earlier -= 1,
        _ => (),
    }
}

pub fn in_display(lent: &mut Lent, answer: &mut raw::DisplayAnswer) {
    match planted() {
        37 if answer.number != 0 => lent.words[PANEL].content_mut()[9_000] ^= 1,
        38 if answer.grid.areas > 2 => answer.number = 12,
        39 if answer.number == 0 => answer.grid.areas += 1,
        40 => (answer.earlier, answer.later) = (0, 0),
        41 if answer.number != 0 => answer.later = 1,
        _ => (),
    }
}

pub fn in_entry(lent: &mut Lent, numbers: Numbers, answer: &mut raw::PanelAnswer) {
    let accepted = answer.number == 0;
    let words = lent.words[PANEL].content_mut();
    match planted() {
        6 if answer.number == 8 => answer.panel.room.columns.used ^= 1,
        7 if accepted && numbers.axis == 1 => words[COLUMNS.end - 1] ^= 4,
        8 if accepted => lent.bytes[TEXT].content_mut()[0] ^= 1,
        24 if accepted && numbers.axis == 0 => words[ROWS.start] ^= 1,
        25 if accepted => words[AREAS.start] ^= 1,
        26 if accepted => words[PLACEMENTS.end - 1] ^= 1,
        27 if accepted => lent.bytes[PANEL].content_mut()[AREA_NAMES_START] ^= 1,
        _ => (),
    }
}

pub fn in_size(answer: &mut raw::SizeAnswer) {
    if planted() == 9 && answer.number != 0 {
        answer.explicit = 1;
    }
}

pub fn in_record_count(answer: &mut raw::CountAnswer) {
    if planted() == 10 && CALLS.fetch_add(1, Ordering::Relaxed) % 1_000 == 999 {
        answer.count += 2;
    }
}

pub fn in_placement(lent: &mut Lent, answer: &mut raw::PlacementAnswer) {
    match planted() {
        11 if answer.startkind == 1 => lent.words[PANEL].content_mut()[PLACEMENTS.start + 3] ^= 1,
        12 if answer.number == 10 => answer.endkind = 1,
        13 => answer.endnumber += i32::from(lent.bytes[COLUMN_STORE].read_before() == 0xc3),
        33 if answer.number == 4 => answer.endheld = 1,
        34 if answer.startkind != 1 && answer.number == 0 => answer.startheld = 1,
        _ => (),
    }
}

pub fn in_name(lent: &Lent, numbers: Numbers, answer: &mut raw::NameAnswer) {
    let store = if numbers.axis == 0 { COLUMN_STORE } else { ROW_STORE };
    match planted() {
        14 if answer.number == 0 && answer.offset as usize == lent.bytes[store].content().len() => answer.length = 1,
        15 if answer.number == 10 => answer.number = 0,
        _ => (),
    }
}

pub fn in_records(lent: &mut Lent, answer: &mut raw::CountAnswer) {
    let words = lent.words[RUN].content_mut();
    let end = 3 * answer.count as usize;
    match planted() {
        16 if answer.number == 0 && end < words.len() => words[end] = 0,
        17 if answer.number == 10 && !words.is_empty() => words[0] = 0,
        18 if answer.number == 0 => answer.count -= 1,
        19 if answer.number == 10 => answer.count = 3,
        20 if answer.number == 0 => words[0] ^= 2,
        32 if answer.number == 0 => words.chunks_mut(3).take(end / 3).filter(|record| record[0] & 1 == 0).for_each(|record| record[0] = 20),
        _ => (),
    }
}

pub fn in_placements(lent: &mut Lent, answer: &mut raw::CountAnswer) {
    match planted() {
        21 if answer.count > 0 => lent.words[RUN].content_mut()[PLACEMENT_NUMBERS / 2 * answer.count as usize - 1] ^= 1,
        28 if answer.number == 0 => lent.words[RUN].write_past(7),
        29 if answer.number == 10 => answer.number = 0,
        _ => (),
    }
}

pub fn in_nearest(answer: &mut raw::LineAnswer) {
    match planted() {
        42 if answer.number != 0 => answer.line = 1,
        43 if answer.number == 3 => (answer.number, answer.line) = (0, 1),
        _ => (),
    }
}

pub fn in_resize(answer: &mut raw::ResizeAnswer) {
    match planted() {
        47 if answer.number == 3 => answer.size = 1,
        48 if answer.found == 1 => answer.size += 65_536,
        _ => (),
    }
}

pub fn in_cells(lent: &mut Lent, answer: &mut raw::CellsAnswer) {
    let words = lent.words[RUN].content_mut();
    match planted() {
        49 if answer.number == 15 => answer.count = 1,
        50 if answer.number == 15 => words[0] = 0,
        51 if answer.number == 0 && answer.count > 0 => words[0] |= 0x8000 << 48,
        52 if answer.number == 10 => answer.line = 1,
        _ => (),
    }
}

pub fn in_trial(lent: &mut Lent, numbers: Numbers, answer: &mut raw::TrialAnswer) {
    let store = if numbers.axis == 0 { COLUMN_STORE } else { ROW_STORE };
    let (run, lands) = (RUN, TRIED_LANDS);
    match planted() {
        53 if answer.number == 0 => lent.bytes[store].content_mut()[0] ^= 1,
        54 if answer.number == 15 => lent.words[run].content_mut()[0] = 0,
        55 if answer.number == 10 => answer.placements = 1,
        56 if answer.placements > 0 => lent.words[run].content_mut()[PLACEMENT_NUMBERS / 2 * answer.placements as usize - 1] ^= 1,
        57 if answer.cells > 0 => lent.words[lands].content_mut()[0] ^= 1 << 32,
        58 if answer.number == 4 && numbers.place > 1 => answer.number = 0,
        59 if answer.number == 0 => lent.words[lands].write_past(7),
        60 if answer.number == 8 => answer.number = 10,
        _ => (),
    }
}

pub fn in_edit(lent: &mut Lent, answer: &mut raw::EditAnswer) {
    let lines = lent.bytes[LINES].content_mut();
    match planted() {
        61 if answer.number != 0 && !lines.is_empty() => lines[0] ^= 1,
        62 if answer.number == 4 => answer.history.step ^= 1,
        63 if answer.number == 0 => *lines.last_mut().expect("a line") ^= 1,
        64 if answer.number == 0 => lent.bytes[LINES].write_past(7),
        65 if answer.number == 0 => answer.history.step += 1,
        66 if answer.number == 0 => answer.history.last += 1,
        67 if answer.number == 16 => answer.later = 1,
        _ => (),
    }
}

pub fn in_recall(lent: &mut Lent, answer: &mut raw::EditAnswer) {
    let lines = lent.bytes[LINES].content_mut();
    match planted() {
        68 if answer.number == 0 && !lines.is_empty() => lines[0] ^= 1,
        69 if answer.number == 0 => answer.history.last = answer.history.step,
        70 if answer.number == 0 => answer.panel.grid.placements += 1,
        _ => (),
    }
}

pub fn in_hits(lent: &mut Lent, answer: &mut raw::CountAnswer) {
    let words = lent.words[RUN].content_mut();
    match planted() {
        44 if answer.count == 2 => words[0] &= 0xffff_ffff,
        45 if answer.number == 11 => words[0] = 0,
        46 if answer.number == 0 && answer.count < 250 => words[127] = 0,
        _ => (),
    }
}

pub fn in_names(lent: &mut Lent, answer: &mut raw::CountAnswer) {
    match planted() {
        22 if answer.count > 0 => lent.words[RUN].content_mut()[0] ^= 1 << 16,
        30 if answer.number == 0 => lent.words[RUN].write_past(7),
        31 if answer.number == 10 => answer.number = 0,
        _ => (),
    }
}
