//! The call that places cells, and what `palgwern.h` promises of it.
use crate::calls::Numbers;
use crate::lent::*;
use crate::palgwern::{raw, Grid, Land, CELLS, PLACEMENT_NUMBERS};
use crate::planted;
use crate::promises::{of_refusal, twice, Promises, Twice};
use crate::runs;

/// The last row line that a cell may reach.
const LAST_ROW_LINE: u16 = 10_001;

/// Words for where cells land, of the length that the call fixes.
pub fn lend_lands(lent: &mut Lent) {
    lent.words[RUN].fill_with(&[0x7777_7777_7777_7777; CELLS]);
}

pub fn place_cells(lent: &mut Lent, grid: Grid, packing: u32) -> raw::CellsAnswer {
    let [words, run, ..] = &mut lent.words;
    let (columnstore, rowstore) = (lent.bytes[COLUMN_STORE].content(), lent.bytes[ROW_STORE].content());
    // SAFETY: as in `calls::read_sheet`.
    let mut answer = unsafe {
        raw::palgwern_place_cells(
            grid, words.array(), lent.bytes[PANEL].array(), columnstore.as_ptr(), columnstore.len(), rowstore.as_ptr(), rowstore.len(),
            packing, run.array_mut(),
        )
    };
    planted::in_cells(lent, &mut answer);
    answer
}

/// Whether a word has lines of the grid in order.
fn is_land(grid: Grid, word: u64) -> bool {
    let Land { columns, rows } = Land::of(word);
    let last = u64::from(grid.columns.size.explicit) + 1;
    1 <= columns[0] && columns[0] < columns[1] && u64::from(columns[1]) <= last && 1 <= rows[0] && rows[0] < rows[1] && rows[1] <= LAST_ROW_LINE
}

/// How many cells are placed: as many as the panel counts, of those that its placements hold, columns and then rows.
fn cells_of(lent: &Lent, grid: Grid) -> u32 {
    let mut other = lent.clone();
    runs::lend_run("resolve_placements", &mut other);
    let run = runs::placements(&mut other, grid, Numbers { axis: 0, line: 0, place: 0 });
    let placements = other.words[RUN].content().chunks(PLACEMENT_NUMBERS / 2).take(run.count as usize);
    // The axis is the second number of a placement, and two numbers lie in a word.
    let axes: Vec<u64> = placements.map(|words| words[0] >> 32).collect();
    let held = axes.windows(2).filter(|pair| **pair == [2, 3]).count().min(CELLS);
    grid.cells.min(held as u32)
}

/// The axis is the packing.
pub fn placed(lent: &Lent, grid: Grid, numbers: Numbers) -> (u32, Promises) {
    let Twice { answer, after, mut promises } = twice(lent, |lent| place_cells(lent, grid, numbers.axis));
    let (held, written) = (lent.words[RUN].content(), after.words[RUN].content());
    let count = (answer.count as usize).min(CELLS);
    let counted = |explicit: u32| explicit <= 10_000;
    let many = !counted(grid.columns.size.explicit) || !counted(grid.rows.size.explicit);
    promises.extend(of_refusal(answer.number, &[4, 10, 15], answer.count == 0, after.has_contents_of(lent)));
    promises.push(("a packing that is none is refused by 4", numbers.axis <= 1 || answer.number == 4));
    promises.push(("a count above 10,000 is refused by 4", !many || answer.number == 4));
    promises.push(("a short store is refused", !lent.is_short() || answer.number != 0));
    promises.push(("a line comes with 15 alone", answer.number == 15 || answer.line == 0));
    promises.push(("only the lands are written", after.is_but_for(lent, &[(RUN, lent.words[RUN].whole())], &[])));
    promises.push(("as many cells land as there are", answer.number != 0 || answer.count == cells_of(lent, grid)));
    promises.push(("words past the lands stay", written[count..] == held[count..]));
    promises.push(("a land is lines of the grid", written[..count].iter().all(|&word| is_land(grid, word))));
    (answer.number, promises)
}
