//! The calls of the cursor, and what `palgwern.h` promises of them.
use crate::calls::Numbers;
use crate::lent::*;
use crate::palgwern::{raw, Grid, HITS};
use crate::planted;
use crate::promises::{of_refusal, tracks, twice, Promises, Twice};

const LARGEST_LENGTH: u32 = 0x477f_ff00;

/// A list of placements, of the length that the calls fix, two in each word of the run.
pub fn lend_hits(lent: &mut Lent) {
    lent.words[RUN].fill_with(&[0x7777_7777_7777_7777; HITS / 2]);
}

/// The numbers of a list.
pub fn hits(lent: &Lent) -> impl Iterator<Item = u32> + '_ {
    lent.words[RUN].content().iter().flat_map(|word| [*word as u32, (*word >> 32) as u32])
}

/// The line is the cursor's bits.
pub fn nearest_line(lent: &Lent, grid: Grid, numbers: Numbers) -> raw::LineAnswer {
    let items = lent.bytes[ITEMS].content();
    // SAFETY: as in `calls::read_sheet`; nothing is written.
    let mut answer = unsafe { raw::palgwern_nearest_line(grid, lent.words[PANEL].array(), numbers.axis, items.as_ptr(), items.len(), numbers.line) };
    planted::in_nearest(&mut answer);
    answer
}

/// The line and the place are the bits of a span's ends.
pub fn placements_within(lent: &mut Lent, grid: Grid, numbers: Numbers) -> raw::CountAnswer {
    let [words, run, ..] = &mut lent.words;
    let (columnstore, rowstore) = (lent.bytes[COLUMN_STORE].content(), lent.bytes[ROW_STORE].content());
    let items = lent.bytes[ITEMS].content();
    let run: *mut [u64; HITS / 2] = run.array_mut();
    // SAFETY: as above; any word is two numbers.
    let mut answer = unsafe {
        raw::palgwern_placements_within(
            grid, words.array(), lent.bytes[PANEL].array(), columnstore.as_ptr(), columnstore.len(), rowstore.as_ptr(), rowstore.len(),
            numbers.axis, items.as_ptr(), items.len(), numbers.line, numbers.place, run.cast(),
        )
    };
    planted::in_hits(lent, &mut answer);
    answer
}

/// The line is the given one.
pub fn placements_around(lent: &mut Lent, grid: Grid, numbers: Numbers) -> raw::CountAnswer {
    let [words, run, ..] = &mut lent.words;
    let (columnstore, rowstore) = (lent.bytes[COLUMN_STORE].content(), lent.bytes[ROW_STORE].content());
    let items = lent.bytes[ITEMS].content();
    let run: *mut [u64; HITS / 2] = run.array_mut();
    // SAFETY: as above.
    let mut answer = unsafe {
        raw::palgwern_placements_around(
            grid, words.array(), lent.bytes[PANEL].array(), columnstore.as_ptr(), columnstore.len(), rowstore.as_ptr(), rowstore.len(),
            numbers.axis, items.as_ptr(), items.len(), numbers.line as i32, run.cast(),
        )
    };
    planted::in_hits(lent, &mut answer);
    answer
}

/// A pixel for a number: mostly a whole one, else any bits.
fn pixel(number: u32) -> u32 {
    if number % 3 == 0 { number } else { ((number % 70_000) as f32).to_bits() }
}

/// The numbers of a question to the cursor.
pub fn numbers(call: &str, numbers: Numbers) -> Numbers {
    match call {
        "placements_around" if numbers.line % 2 == 1 => Numbers { line: (numbers.line as i32).wrapping_neg() as u32, ..numbers },
        "placements_around" => numbers,
        _ => Numbers { line: pixel(numbers.line), place: pixel(numbers.place), ..numbers },
    }
}

/// Whether fewer item bytes are lent than there are tracks.
fn few_items(lent: &Lent, grid: Grid, numbers: Numbers) -> bool {
    (lent.bytes[ITEMS].content().len() as u64) < tracks(grid, numbers)
}

pub fn nearest(lent: &Lent, grid: Grid, numbers: Numbers) -> (u32, Promises) {
    let Twice { answer, after, mut promises } = twice(lent, |lent| nearest_line(lent, grid, numbers));
    promises.extend(of_refusal(answer.number, &[3, 4, 10, 11], answer.line == 0, after.has_contents_of(lent)));
    promises.push(("a cursor outside a length's range is refused by 3", numbers.line <= LARGEST_LENGTH || answer.number == 3));
    promises.push(("a nearest line is a line", answer.number != 0 || (answer.line != 0 && answer.line.abs() <= 30_001)));
    promises.push(("fewer item bytes than tracks are refused", !few_items(lent, grid, numbers) || answer.number != 0));
    promises.push(("a question changes nothing", after.has_contents_of(lent)));
    (answer.number, promises)
}

/// What both lists promise.
fn of_list(lent: &Lent, after: &Lent, grid: Grid, numbers: Numbers, answer: raw::CountAnswer) -> Promises {
    let count = answer.count as usize;
    let listed: Vec<u32> = hits(after).take(count).collect();
    let short = few_items(lent, grid, numbers) || lent.is_short();
    vec![
        ("only the list is written", after.is_but_for(lent, &[(RUN, lent.words[RUN].whole())], &[])),
        ("no more are listed than there is room for", count <= HITS),
        ("a list rises, each placement once", listed.windows(2).all(|pair| pair[0] < pair[1])),
        ("what is listed is a placement", listed.iter().all(|&number| number < grid.placements)),
        ("numbers past the list stay", hits(after).skip(count).eq(hits(lent).skip(count))),
        ("fewer item bytes than tracks, and short stores, are refused", !short || answer.number != 0),
    ]
}

pub fn within(lent: &Lent, grid: Grid, numbers: Numbers) -> (u32, Promises) {
    let Twice { answer, after, mut promises } = twice(lent, |lent| placements_within(lent, grid, numbers));
    let outside = numbers.line > LARGEST_LENGTH || numbers.place > LARGEST_LENGTH;
    promises.extend(of_refusal(answer.number, &[3, 4, 10, 11], answer.count == 0, after.has_contents_of(lent)));
    promises.push(("an end outside a length's range is refused by 3", !outside || answer.number == 3));
    promises.extend(of_list(lent, &after, grid, numbers, answer));
    (answer.number, promises)
}

pub fn around(lent: &Lent, grid: Grid, numbers: Numbers) -> (u32, Promises) {
    let Twice { answer, after, mut promises } = twice(lent, |lent| placements_around(lent, grid, numbers));
    promises.extend(of_refusal(answer.number, &[4, 9, 10, 11], answer.count == 0, after.has_contents_of(lent)));
    promises.push(("line 0 is refused", numbers.line != 0 || answer.number != 0));
    promises.extend(of_list(lent, &after, grid, numbers, answer));
    (answer.number, promises)
}
