//! The calls that answer a whole run, placements and line names, and what `palgwern.h` promises of them.
use crate::calls::{self, Numbers};
use crate::lent::*;
use crate::palgwern::{raw, Grid, LINE_NAME_RUN, PLACEMENT_NUMBERS, PLACEMENT_RUN};
use crate::planted;
use crate::promises::{of_refusal, twice, Promises, Twice};

/// The words of a run of placements: two numbers lie in each.
pub const PLACEMENT_RUN_WORDS: usize = PLACEMENT_RUN / 2;
/// The most placements of a run.
const MOST_PLACEMENTS: u64 = (PLACEMENT_RUN / PLACEMENT_NUMBERS) as u64;

/// A run for placements or for line names, of the length that the call fixes.
pub fn lend_run(call: &str, lent: &mut Lent) {
    let words = if call == "resolve_placements" { PLACEMENT_RUN_WORDS } else { LINE_NAME_RUN };
    lent.words[RUN].fill_with(&vec![0x7777_7777_7777_7777; words]);
}

pub fn placements(lent: &mut Lent, grid: Grid, numbers: Numbers) -> raw::CountAnswer {
    let [words, run, ..] = &mut lent.words;
    let (columnstore, rowstore) = (lent.bytes[COLUMN_STORE].content(), lent.bytes[ROW_STORE].content());
    let run: *mut [u64; PLACEMENT_RUN_WORDS] = run.array_mut();
    // SAFETY: as in `calls::read_sheet`; any word is two numbers.
    let mut answer = unsafe {
        raw::palgwern_resolve_placements(
            grid, words.array(), lent.bytes[PANEL].array(), columnstore.as_ptr(), columnstore.len(), rowstore.as_ptr(), rowstore.len(),
            numbers.place, run.cast(),
        )
    };
    planted::in_placements(lent, &mut answer);
    answer
}

/// The numbers of a run of placements.
pub fn numbers(lent: &Lent) -> Vec<i32> {
    lent.words[RUN].content().iter().flat_map(|&word| [word as i32, (word >> 32) as i32]).collect()
}

fn names(lent: &mut Lent, grid: Grid, numbers: Numbers) -> raw::CountAnswer {
    let [words, run, ..] = &mut lent.words;
    let (columnstore, rowstore) = (lent.bytes[COLUMN_STORE].content(), lent.bytes[ROW_STORE].content());
    // SAFETY: as above.
    let mut answer = unsafe {
        raw::palgwern_line_names(
            grid, words.array(), columnstore.as_ptr(), columnstore.len(), rowstore.as_ptr(), rowstore.len(), numbers.axis,
            run.array_mut(),
        )
    };
    planted::in_names(lent, &mut answer);
    answer
}

/// The words of a placement that is asked for alone.
fn alone(lent: &mut Lent, grid: Grid, numbers: Numbers) -> [u64; PLACEMENT_NUMBERS / 2] {
    let p = calls::resolve_placement(lent, grid, numbers);
    let word = |low: u32, high: u32| u64::from(low) | u64::from(high) << 32;
    [word(p.number, p.axis), word(p.startkind, p.startnumber as u32), word(p.endkind, p.endnumber as u32), word(p.startheld, p.endheld)]
}

pub fn resolve_placements(lent: &Lent, grid: Grid, numbers: Numbers) -> (u32, Promises) {
    let Twice { answer, after, mut promises } = twice(lent, |lent| placements(lent, grid, numbers));
    let (held, written) = (lent.words[RUN].content(), after.words[RUN].content());
    let there = u64::from(grid.placements).saturating_sub(u64::from(numbers.place));
    let end = PLACEMENT_NUMBERS / 2 * answer.count.min(MOST_PLACEMENTS) as usize;
    let expected = if there == 0 { 4 } else if lent.is_short() { 10 } else { 0 };
    let mut other = lent.clone();
    let mut same = |(i, words): (usize, &[u64])| *words == alone(&mut other, grid, Numbers { place: numbers.place + i as u32, ..numbers });
    promises.extend(of_refusal(answer.number, &[4, 10], answer.count == 0, after.has_contents_of(lent)));
    promises.push(("a run of placements is refused by 4 for none, else by 10 for a short store", answer.number == expected));
    promises.push(("only the numbers lent are written", after.is_but_for(lent, &[(RUN, lent.words[RUN].whole())], &[])));
    let all = answer.count == there.min(MOST_PLACEMENTS);
    promises.push(("as many placements are written as there are and fit", answer.number != 0 || all));
    promises.push(("numbers past the placements stay", written[end..] == held[end..]));
    promises.push(("a placement of a run is the one asked for alone", written[..end].chunks(PLACEMENT_NUMBERS / 2).enumerate().all(&mut same)));
    (answer.number, promises)
}

/// Whether a word names a part of the store, and the first and the last of each line's words are those that are asked for alone.
fn are_names(lent: &Lent, grid: Grid, numbers: Numbers, words: &[u64]) -> bool {
    let parts = words.iter().map(|word| ((word & 0xffff) as u32, (word >> 16 & 0xffff) as u32, (word >> 32) as u32));
    let parts: Vec<(u32, u32, u32)> = parts.collect();
    let rising = parts.windows(2).all(|pair| pair[0].0 <= pair[1].0);
    let lines = parts.chunk_by(|one, next| one.0 == next.0);
    let asked = |line: &[(u32, u32, u32)], place: usize| {
        let name = calls::line_name(lent, grid, Numbers { line: line[0].0, place: place as u32, ..numbers });
        name.length == 0 && line[place].2 == 0 || (name.offset, name.length) == (line[place].1, line[place].2)
    };
    rising && lines.take(20).all(|line| asked(line, 0) && asked(line, line.len() - 1))
}

pub fn line_names(lent: &Lent, grid: Grid, numbers: Numbers) -> (u32, Promises) {
    let Twice { answer, after, mut promises } = twice(lent, |lent| names(lent, grid, numbers));
    let (held, written) = (lent.words[RUN].content(), after.words[RUN].content());
    let end = answer.count.min(held.len() as u64) as usize;
    let explicit = if numbers.axis == 0 { grid.columns.size.explicit } else { grid.rows.size.explicit };
    let expected = if numbers.axis > 1 || explicit > 10_000 { 4 } else if lent.is_short() { 10 } else { 0 };
    promises.extend(of_refusal(answer.number, &[4, 10], answer.count == 0, after.has_contents_of(lent)));
    promises.push(("line names are refused by 4 for no axis or too many tracks, else by 10 for a short store", answer.number == expected));
    promises.push(("only the words lent are written", after.is_but_for(lent, &[(RUN, lent.words[RUN].whole())], &[])));
    promises.push(("words past the names stay", written[end..] == held[end..]));
    promises.push(("names of a run are those asked for alone", are_names(lent, grid, numbers, &written[..end])));
    (answer.number, promises)
}
