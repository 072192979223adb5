//! The call that tries a name, and what `palgwern.h` promises of it.
use crate::calls::{self, Numbers};
use crate::cells;
use crate::lent::*;
use crate::palgwern::{raw, State, CELLS};
use crate::planted;
use crate::promises::{of_refusal, twice, Promises, Twice};
use crate::runs::{self, PLACEMENT_RUN_WORDS};

/// Words for the placements and for where cells land, of the lengths that the call fixes.
pub fn lend_answers(lent: &mut Lent) {
    runs::lend_run("resolve_placements", lent);
    lent.words[TRIED_LANDS].fill_with(&[0x7777_7777_7777_7777; CELLS]);
}

/// The text is the name, the place is the packing.
pub fn try_name(lent: &mut Lent, panel: State, numbers: Numbers) -> raw::TrialAnswer {
    let [words, run, lands] = &mut lent.words;
    let (columnstore, rowstore, name) = (lent.bytes[COLUMN_STORE].content(), lent.bytes[ROW_STORE].content(), lent.bytes[TEXT].content());
    let trial = raw::Trial { axis: numbers.axis, line: numbers.line, packing: numbers.place };
    let run: *mut [u64; PLACEMENT_RUN_WORDS] = run.array_mut();
    // SAFETY: as in `calls::read_sheet`; any word is two numbers.
    let mut answer = unsafe {
        raw::palgwern_try_name(
            panel, words.array(), lent.bytes[PANEL].array(), columnstore.as_ptr(), columnstore.len(), rowstore.as_ptr(), rowstore.len(),
            trial, name.as_ptr(), name.len(), run.cast(), lands.array_mut(),
        )
    };
    planted::in_trial(lent, numbers, &mut answer);
    answer
}

fn refused(number: u32, line: u32) -> raw::TrialAnswer {
    raw::TrialAnswer { number, line, placements: 0, cells: 0 }
}

/// What the calls answer on a copy in which the name is entered, and what they leave in the words of the answer.
fn entered(lent: &Lent, panel: State, numbers: Numbers) -> (raw::TrialAnswer, Lent) {
    let (mut copy, mut after) = (lent.clone(), lent.clone());
    let entry = calls::enter_name(&mut copy, panel, numbers);
    if numbers.place > 1 && entry.number != 2 {
        return (refused(4, 0), after);
    }
    if entry.number != 0 {
        return (refused(entry.number, entry.line), after);
    }
    let (mut placing, grid) = (copy.clone(), entry.panel.grid);
    cells::lend_lands(&mut placing);
    let placed = cells::place_cells(&mut placing, grid, numbers.place);
    if placed.number != 0 {
        return (refused(placed.number, placed.line), after);
    }
    let run = runs::placements(&mut copy, grid, Numbers { place: 0, ..numbers });
    after.words[RUN].fill_with(copy.words[RUN].content());
    after.words[TRIED_LANDS].fill_with(placing.words[RUN].content());
    (raw::TrialAnswer { number: 0, line: 0, placements: run.count as u32, cells: placed.count }, after)
}

pub fn tried(lent: &Lent, panel: State, numbers: Numbers) -> (u32, Promises) {
    let Twice { answer, after, mut promises } = twice(lent, |lent| try_name(lent, panel, numbers));
    let (expected, left) = entered(lent, panel, numbers);
    let written = [(RUN, lent.words[RUN].whole()), (TRIED_LANDS, lent.words[TRIED_LANDS].whole())];
    let zeros = (answer.placements, answer.cells) == (0, 0);
    promises.extend(of_refusal(answer.number, &[2, 4, 8, 10, 15], zeros, after.has_contents_of(lent)));
    promises.push(("a trial leaves the panel, its tables and stores, and the name", after.is_but_for(lent, &written, &[])));
    promises.push(("a trial is refused as the entry on a copy is, or its cells", (answer.number, answer.line) == (expected.number, expected.line)));
    promises.push(("a trial answers as many as the copy does", answer == expected));
    promises.push(("a trial writes what the copy answers, and what lies past it stays", after.has_contents_of(&left)));
    promises.push(("a line comes with 15 alone", answer.number == 15 || answer.line == 0));
    promises.push(("a trial with a short store is refused", !lent.is_short() || answer.number != 0));
    (answer.number, promises)
}
