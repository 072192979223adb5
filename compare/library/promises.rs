//! What `palgwern.h` promises of each call on every input.
use crate::calls::{self, Numbers};
use crate::lent::*;
use crate::palgwern::{raw, Grid, State};

/// Each promise with whether it was kept.
pub type Promises = Vec<(&'static str, bool)>;

/// A call made twice on the same contents, the second time between other guards.
pub struct Twice<A> {
    pub answer: A,
    pub after: Lent,
    pub promises: Promises,
}

pub fn twice<A: PartialEq>(lent: &Lent, call: impl Fn(&mut Lent) -> A) -> Twice<A> {
    let (mut first, mut second) = (lent.guarded_by(0x5a), lent.guarded_by(0xc3));
    let (answer, again) = (call(&mut first), call(&mut second));
    let promises = vec![
        ("the same call gives the same answer", answer == again),
        ("the same call leaves the same", first.has_contents_of(&second)),
        ("nothing outside of a buffer is written", first.guards_are_intact() && second.guards_are_intact()),
    ];
    Twice { answer, after: first, promises }
}

/// What each refused call promises, and what it may refuse by.
pub fn of_refusal(number: u32, numbers: &[u32], zeros: bool, untouched: bool) -> Promises {
    vec![
        ("a refusal has one of its numbers", number == 0 || numbers.contains(&number)),
        ("a refusal gives zeros, or the panel back", number == 0 || zeros),
        ("a refusal leaves everything lent", number == 0 || untouched),
    ]
}

/// The answer that tables of zeros and full stores give.
fn anew<A>(sheet: &[u8], call: impl Fn(&mut Lent) -> A) -> A {
    let mut lent = Lent::filled(0);
    lent.bytes[TEXT].fill_with(sheet);
    call(&mut lent)
}

/// What every call that reads a sheet promises: the sheet is only read, and only the panel's words, its bytes and the stores are written.
fn only_reads(lent: &Lent, after: &Lent) -> (&'static str, bool) {
    let bytes = [PANEL, COLUMN_STORE, ROW_STORE].map(|at| (at, lent.bytes[at].whole()));
    ("a sheet is only read", after.is_but_for(lent, &[(PANEL, lent.words[PANEL].whole())], &bytes))
}

/// Whether two numbers are those of an earlier and a later area.
fn is_pair(earlier: u32, later: u32) -> bool {
    1 <= earlier && earlier < later && later <= 65
}

pub fn read_sheet(lent: &Lent) -> (u32, Promises) {
    let Twice { answer, after, mut promises } = twice(lent, calls::read_sheet);
    let anew = anew(lent.bytes[TEXT].content(), calls::read_sheet);
    let is_short = lent.is_short() && anew.number == 0;
    let short = raw::SheetAnswer { number: 10, line: 0, earlier: 0, later: 0, panel: State::default() };
    let zeros = answer.panel == State::default();
    promises.extend(of_refusal(answer.number, &[1, 2, 3, 4, 5, 6, 7, 8, 10, 12, 13, 14], zeros, after.has_contents_of(lent)));
    promises.push(("an accepted sheet has line 0", answer.number != 0 || answer.line == 0));
    promises.push(("what the tables held is nothing to a sheet", answer == if is_short { short } else { anew }));
    let paired = if answer.number == 12 { is_pair(answer.earlier, answer.later) } else { (answer.earlier, answer.later) == (0, 0) };
    promises.push(("a pair of areas stands beside 12, and zeros beside all else", paired));
    promises.push(only_reads(lent, &after));
    (answer.number, promises)
}

pub fn display_sheet(lent: &Lent) -> (u32, Promises) {
    let Twice { answer, after, mut promises } = twice(lent, calls::display_sheet);
    let (shown, read) = (anew(lent.bytes[TEXT].content(), calls::display_sheet), anew(lent.bytes[TEXT].content(), calls::read_sheet));
    let is_short = lent.is_short() && shown.number == 0;
    let short = raw::DisplayAnswer { number: 10, line: 0, earlier: 0, later: 0, grid: Grid::default() };
    let zeros = answer.grid == Grid::default() && (answer.earlier, answer.later) == (0, 0);
    promises.extend(of_refusal(answer.number, &[1, 2, 3, 4, 5, 6, 7, 8, 10, 13, 14], zeros, after.has_contents_of(lent)));
    promises.push(("an accepted display has line 0", answer.number != 0 || answer.line == 0));
    promises.push(("what the tables held is nothing to a display", answer == if is_short { short } else { shown }));
    let alike = (shown.number, shown.line, shown.grid) == (read.number, read.line, read.panel.grid);
    promises.push(("a display answers as the sheet call, but for 12", alike || read.number == 12));
    let refused_by = if shown.number == 0 { (read.earlier, read.later) } else { (0, 0) };
    promises.push(("a display has the pair that the sheet is refused with", (shown.earlier, shown.later) == refused_by));
    promises.push(only_reads(lent, &after));
    (answer.number, promises)
}

fn is_name(name: &[u8]) -> bool {
    (1..=32).contains(&name.len()) && name.iter().all(|byte| (33..=126).contains(byte))
}

/// The lowest number that the arguments of an entry alone are refused by, 0 for none.
fn entry_fault(name: &[u8], numbers: Numbers) -> u32 {
    if !is_name(name) {
        return 2;
    }
    if numbers.axis > 1 || !(1..=20_000).contains(&numbers.line) { 4 } else { 0 }
}

pub fn enter_name(lent: &Lent, panel: State, numbers: Numbers) -> (u32, Promises) {
    let Twice { answer, after, mut promises } = twice(lent, |lent| calls::enter_name(lent, panel, numbers));
    let fault = entry_fault(lent.bytes[TEXT].content(), numbers);
    promises.extend(of_refusal(answer.number, &[2, 4, 8, 10], answer.panel == panel, after.has_contents_of(lent)));
    promises.push(("an entry has line 0", answer.line == 0));
    promises.push(("an entry outside its ranges is refused by 2 or 4", fault == 0 || answer.number == fault));
    promises.push(("an entry within them is not", fault != 0 || ![2, 4].contains(&answer.number)));
    promises.push(("an entry with a short store is refused", !lent.is_short() || answer.number != 0));
    let rows = numbers.axis == 1;
    let (region, store) = if rows { (ROWS, ROW_STORE) } else { (COLUMNS, COLUMN_STORE) };
    let left = after.is_but_for(lent, &[(PANEL, region)], &[(store, lent.bytes[store].whole())]);
    promises.push(("an entry leaves the other axis, the areas, the placements and the bytes", left));
    let columns = |state: State| (state.grid.columns, state.room.columns);
    let rows_of = |state: State| (state.grid.rows, state.room.rows);
    let other = if rows { columns(answer.panel) == columns(panel) } else { rows_of(answer.panel) == rows_of(panel) };
    promises.push(("an entry leaves the other axis's state", other));
    (answer.number, promises)
}

/// A call on numbers alone: refused by 4 just where there is no such axis.
fn of_numbers(number: u32, numbers: Numbers, zeros: bool, alike: bool) -> (u32, Promises) {
    let mut promises = of_refusal(number, &[4], zeros, true);
    promises.push(("refused just where there is no such axis", (number != 0) == (numbers.axis > 1)));
    promises.push(("the same call gives the same answer", alike));
    (number, promises)
}

pub fn explicit_size(grid: Grid, numbers: Numbers) -> (u32, Promises) {
    let (answer, again) = (calls::explicit_size(grid, numbers), calls::explicit_size(grid, numbers));
    of_numbers(answer.number, numbers, (answer.repetitions, answer.explicit) == (0, 0), answer == again)
}

pub fn line_count(grid: Grid, numbers: Numbers) -> (u32, Promises) {
    let (answer, again) = (calls::line_count(grid, numbers), calls::line_count(grid, numbers));
    of_numbers(answer.number, numbers, answer.count == 0, answer == again)
}

pub fn record_count(grid: Grid, numbers: Numbers) -> (u32, Promises) {
    let (answer, again) = (calls::record_count(grid, numbers), calls::record_count(grid, numbers));
    let (number, mut promises) = of_numbers(answer.number, numbers, answer.count == 0, answer == again);
    promises.push(("the number of records is odd", number != 0 || answer.count % 2 == 1));
    (number, promises)
}

/// Whether an end has one of the kinds, and a number of its range.
fn is_end(kind: u32, number: i32) -> bool {
    match kind {
        0 => number == 0,
        1 => i16::try_from(number).is_ok(),
        3 => u16::try_from(number).is_ok(),
        _ => false,
    }
}

pub fn resolve_placement(lent: &Lent, grid: Grid, numbers: Numbers) -> (u32, Promises) {
    let Twice { answer, after, mut promises } = twice(lent, |lent| calls::resolve_placement(lent, grid, numbers));
    let raw::PlacementAnswer { number, axis, startkind, startnumber, endkind, endnumber, startheld, endheld } = answer;
    let zeros = (axis, startkind, startnumber, endkind, endnumber, startheld, endheld) == (0, 0, 0, 0, 0, 0, 0);
    promises.extend(of_refusal(number, &[4, 10], zeros, true));
    promises.push(("a placement is only read", after.has_contents_of(lent)));
    promises.push(("a placement that isn't there is refused by 4", numbers.place < grid.placements || number == 4));
    promises.push(("a placement with a short store is refused", !lent.is_short() || number != 0));
    promises.push(("an axis is 0 or 1, 2 more for a cell", axis <= 3));
    promises.push(("an end has a kind and its number", is_end(startkind, startnumber) && is_end(endkind, endnumber)));
    let marked = |held: u32, kind: u32, number: i32| held == 0 || held == 1 && kind == 1 && number != 0;
    promises.push(("a mark is 0 or 1, and only a line has one", marked(startheld, startkind, startnumber) && marked(endheld, endkind, endnumber)));
    (number, promises)
}

pub fn line_name(lent: &Lent, grid: Grid, numbers: Numbers) -> (u32, Promises) {
    let Twice { answer, after, mut promises } = twice(lent, |lent| calls::line_name(lent, grid, numbers));
    let store = if numbers.axis == 0 { COLUMN_STORE } else { ROW_STORE };
    let end = u64::from(answer.offset) + u64::from(answer.length);
    let expected = if numbers.axis > 1 { 4 } else if lent.is_short() { 10 } else { 0 };
    promises.extend(of_refusal(answer.number, &[4, 10], (answer.offset, answer.length) == (0, 0), true));
    promises.push(("names are only read", after.has_contents_of(lent)));
    promises.push(("a name is refused by 4 for no axis, else by 10 for a short store", answer.number == expected));
    promises.push(("a name lies within its store", end <= lent.bytes[store].content().len() as u64));
    (answer.number, promises)
}

/// Whether a record's first word is such: a gutter has source 5, a track one below it.
fn is_kind(word: u64) -> bool {
    word < 24 && (word & 1 == 1) == (word >> 2 == 5)
}

/// Whether the words of records are such: a kind with its source, and two sizes.
fn are_records(words: &[u64]) -> bool {
    words.chunks(3).all(|record| is_kind(record[0]) && record[1] >> 32 <= 7 && record[2] >> 32 <= 7)
}

/// Whether a run that starts one record further holds the same records.
fn is_same_further_on(lent: &Lent, grid: Grid, numbers: Numbers, written: &[u64]) -> bool {
    let mut other = lent.clone();
    let further = Numbers { place: numbers.place + 1, ..numbers };
    let answer = calls::records(&mut other, grid, further);
    let both = written.len() / 3 - 1;
    answer.count as usize >= both && other.words[RUN].content()[..3 * both] == written[3..]
}

pub fn records(lent: &Lent, grid: Grid, numbers: Numbers) -> (u32, Promises) {
    let Twice { answer, after, mut promises } = twice(lent, |lent| calls::records(lent, grid, numbers));
    let (lent_words, written) = (lent.words[RUN].content(), after.words[RUN].content());
    let there = calls::record_count(grid, numbers).count.saturating_sub(u64::from(numbers.place));
    let fit = lent_words.len() as u64 / 3;
    let end = (3 * answer.count.min(fit)) as usize;
    let accepted = answer.number == 0;
    let few_items = (lent.bytes[ITEMS].content().len() as u64) < tracks(grid, numbers);
    promises.extend(of_refusal(answer.number, &[4, 10], answer.count == 0, after.has_contents_of(lent)));
    promises.push(("only the words lent are written", after.is_but_for(lent, &[(RUN, lent.words[RUN].whole())], &[])));
    promises.push(("as many records are written as there are and fit", !accepted || answer.count == there.min(fit)));
    promises.push(("words past the records stay", written[end..] == lent_words[end..]));
    promises.push(("a record has a kind, a source and two sizes", are_records(&written[..end])));
    promises.push(("a record that isn't there is refused by 4", there != 0 || answer.number == 4));
    promises.push(("words for no record are refused", fit != 0 || !accepted));
    promises.push(("fewer item bytes than tracks are refused", !few_items || !accepted));
    promises.push(("a record is the same in every run", end < 6 || is_same_further_on(lent, grid, numbers, &written[..end])));
    (answer.number, promises)
}

pub fn least_resize(lent: &Lent, grid: Grid, numbers: Numbers) -> (u32, Promises) {
    let Twice { answer, after, mut promises } = twice(lent, |lent| calls::least_resize(lent, grid, numbers));
    promises.extend(of_refusal(answer.number, &[3, 4], (answer.found, answer.size) == (0, 0), after.has_contents_of(lent)));
    promises.push(("what is no axis is refused by 4", numbers.axis < 2 || answer.number == 4));
    let is_size = if answer.found == 0 { answer.size == 0 } else { answer.found == 1 && answer.size <= 65_535 };
    promises.push(("a resize is a size up to 65,535, or none", is_size));
    promises.push(("a question changes nothing", after.has_contents_of(lent)));
    (answer.number, promises)
}

/// The tracks of an axis, by its record count.
pub fn tracks(grid: Grid, numbers: Numbers) -> u64 {
    calls::record_count(grid, numbers).count / 2
}
