//! Forged panels: a state and tables that no sheet gives, or that were good and then damaged.
use crate::blocks::Call;
use crate::calls::{enter_name, read_sheet, Numbers};
use crate::chance::Chance;
use crate::lent::{Lent, BYTE_REGIONS, COLUMN_STORE, PANEL, ROW_STORE, STORE_BYTES, TEXT, WORD_REGIONS};
use crate::palgwern::{AxisGrid, AxisRoom, Grid, ImplicitCounts, Room, State, TemplateCounts};

/// Sheets of the recorded lists, accepted ones with their entry calls, and refused ones.
pub struct Sheets {
    pub accepted: Vec<(Vec<u8>, Vec<Call>)>,
    pub refused: Vec<(Vec<u8>, Vec<Call>)>,
}

pub struct Forged {
    pub state: State,
    pub lent: Lent,
}

/// The kinds of forging.
pub const KINDS: [(&str, fn(&mut Chance, &Sheets) -> Forged); 7] = [
    ("random words", random),
    ("edges and halves of words", edges),
    ("all ones", ones),
    ("counts at most, empty tables", counts),
    ("good, then damaged", damaged),
    ("good, with the tables of another", exchanged),
    ("good, with stores of other lengths", short),
];

fn grid_counts(axis: &mut AxisGrid) -> [&mut u32; 11] {
    let AxisGrid { space, template, implicit, entries, size } = axis;
    let TemplateCounts { components, tracks } = template;
    let ImplicitCounts { negative, positive, spares } = implicit;
    let (definite, inner, rule) = (&mut space.definite, &mut space.inner, &mut space.rule);
    let (repetitions, explicit) = (&mut size.repetitions, &mut size.explicit);
    [definite, inner, rule, components, tracks, negative, positive, spares, entries, repetitions, explicit]
}

fn room_counts(axis: &mut AxisRoom) -> [&mut u32; 5] {
    let AxisRoom { template, names, used, areas } = axis;
    [&mut template.components, &mut template.tracks, names, used, areas]
}

/// Every number of a state but the gaps.
fn counts_of(state: &mut State) -> Vec<&mut u32> {
    let State { grid, room } = state;
    let Grid { columns, rows, areas, placements, cells } = grid;
    let answers = grid_counts(columns).into_iter().chain(grid_counts(rows)).chain([areas, placements, cells]);
    let Room { columns, rows, areabytes, placementbytes } = room;
    let edits = room_counts(columns).into_iter().chain(room_counts(rows)).chain([areabytes, placementbytes]);
    answers.chain(edits).collect()
}

/// A state of such numbers.
fn state_of(mut value: impl FnMut() -> u32) -> State {
    let mut state = State::default();
    counts_of(&mut state).into_iter().for_each(|count| *count = value());
    state
}

fn random(chance: &mut Chance, _: &Sheets) -> Forged {
    let mut state = state_of(|| chance.next() as u32);
    (state.grid.columns.space.gap, state.grid.rows.space.gap) = (chance.next(), chance.next());
    let mut lent = Lent::filled(0);
    lent.words.iter_mut().for_each(|buffer| buffer.content_mut().iter_mut().for_each(|word| *word = chance.next()));
    lent.bytes.iter_mut().for_each(|buffer| buffer.content_mut().iter_mut().for_each(|byte| *byte = chance.next() as u8));
    Forged { state, lent }
}

fn edges(chance: &mut Chance, _: &Sheets) -> Forged {
    let mut state = state_of(|| chance.count());
    (state.grid.columns.space.gap, state.grid.rows.space.gap) = (chance.word(), chance.word());
    let mut lent = Lent::filled(chance.pick(b"ax-"));
    lent.words.iter_mut().for_each(|buffer| buffer.content_mut().iter_mut().for_each(|word| *word = chance.word()));
    Forged { state, lent }
}

fn ones(_: &mut Chance, _: &Sheets) -> Forged {
    let mut state = state_of(|| u32::MAX);
    (state.grid.columns.space.gap, state.grid.rows.space.gap) = (u64::MAX, u64::MAX);
    Forged { state, lent: Lent::filled(0xff) }
}

fn counts(chance: &mut Chance, _: &Sheets) -> Forged {
    Forged { state: state_of(|| if chance.once_in(3) { 1 } else { u32::MAX }), lent: Lent::filled(0) }
}

/// A panel of an accepted sheet after its entry calls.
fn good(chance: &mut Chance, sheets: &Sheets) -> Forged {
    let (sheet, calls) = &sheets.accepted[chance.below(sheets.accepted.len())];
    let mut lent = Lent::filled(chance.pick(&[0, 0xff]));
    lent.bytes[TEXT].fill_with(sheet);
    let mut state = read_sheet(&mut lent).panel;
    for (axis, line, name) in calls {
        lent.bytes[TEXT].fill_with(name);
        state = enter_name(&mut lent, state, Numbers { axis: *axis as u32, line: *line, place: 0 }).panel;
    }
    Forged { state, lent }
}

/// A place of a region, mostly one that is in use.
fn used_place<T: PartialEq + Copy>(chance: &mut Chance, content: &[T], unused: T) -> usize {
    let start = chance.below(content.len());
    let used = (0..content.len()).map(|step| (start + step) % content.len()).find(|&place| content[place] != unused);
    if chance.once_in(4) { start } else { used.unwrap_or(start) }
}

fn damaged_word(chance: &mut Chance, word: u64) -> u64 {
    match chance.below(5) {
        0 => chance.word(),
        1 => word & !0xffff_ffff | u64::from(chance.count()),
        2 => word & 0xffff_ffff | u64::from(chance.count()) << 32,
        3 => word ^ 1 << chance.below(64),
        _ => {
            let at = 16 * chance.below(4);
            word & !(0xffff << at) | (u64::from(chance.count()) & 0xffff) << at
        }
    }
}

fn damage_word(chance: &mut Chance, lent: &mut Lent) {
    let region = WORD_REGIONS[chance.below(WORD_REGIONS.len())].clone();
    let words = &mut lent.words[PANEL].content_mut()[region];
    let unused = chance.pick(&[0, u64::MAX]);
    let place = used_place(chance, words, unused);
    words[place] = damaged_word(chance, words[place]);
}

/// A byte of a region, or of a store.
fn damage_byte(chance: &mut Chance, lent: &mut Lent) {
    let at = chance.below(BYTE_REGIONS.len() + 2);
    let store = [COLUMN_STORE, ROW_STORE][at % 2];
    let bytes = match BYTE_REGIONS.get(at) {
        Some(region) => &mut lent.bytes[PANEL].content_mut()[region.clone()],
        None => lent.bytes[store].content_mut(),
    };
    let unused = chance.pick(&[0, 0xff]);
    let place = used_place(chance, bytes, unused);
    bytes[place] = chance.next() as u8;
}

fn damage_state(chance: &mut Chance, state: &mut State) {
    let mut counts = counts_of(state);
    let place = chance.below(counts.len());
    *counts[place] = chance.count();
}

fn damaged(chance: &mut Chance, sheets: &Sheets) -> Forged {
    let mut forged = good(chance, sheets);
    for _ in 0..chance.pick(&[1, 1, 2, 4, 16, 200]) {
        match chance.below(8) {
            0..3 => damage_state(chance, &mut forged.state),
            3..7 => damage_word(chance, &mut forged.lent),
            _ => damage_byte(chance, &mut forged.lent),
        }
    }
    if chance.once_in(10) {
        forged.state.grid.columns.space.gap = chance.word();
    }
    forged
}

fn exchanged(chance: &mut Chance, sheets: &Sheets) -> Forged {
    let state = good(chance, sheets).state;
    let other = good(chance, sheets);
    let columns = if chance.once_in(2) { state.grid.columns } else { other.state.grid.rows };
    let room = if chance.once_in(2) { state.room } else { other.state.room };
    Forged { state: State { grid: Grid { columns, ..state.grid }, room }, lent: other.lent }
}

fn short(chance: &mut Chance, sheets: &Sheets) -> Forged {
    let mut forged = good(chance, sheets);
    for (store, axis) in [(COLUMN_STORE, forged.state.room.columns), (ROW_STORE, forged.state.room.rows)] {
        let used = axis.used as usize;
        let length = chance.pick(&[0, 1, used / 2, used.saturating_sub(1), used, STORE_BYTES - 1, STORE_BYTES, STORE_BYTES + 9]);
        forged.lent.bytes[store].resize(length, b'x');
    }
    forged
}
