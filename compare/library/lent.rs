//! Everything that is lent to the calls, each buffer between guards.

pub use crate::palgwern::STORE_BYTES;
use crate::palgwern::*;
use std::ops::Range;

/// Places in `words`: the panel's, what a run is written to, and where the cells of a trial land.
pub const PANEL: usize = 0;
pub const RUN: usize = 1;
pub const TRIED_LANDS: usize = 2;
/// Places in `bytes`: the panel's at `PANEL`, the stores; the text is a sheet or a name.
pub const COLUMN_STORE: usize = 1;
pub const ROW_STORE: usize = 2;
pub const TEXT: usize = 3;
pub const ITEMS: usize = 4;
/// The sheet and the lines of a panel that is edited through a history.
pub const SHEET: usize = 5;
pub const LINES: usize = 6;

/// The regions of the panel's words.
pub const COLUMNS: Range<usize> = COLUMNS_START..COLUMNS_START + AXIS_WORDS;
pub const ROWS: Range<usize> = ROWS_START..ROWS_START + AXIS_WORDS;
pub const AREAS: Range<usize> = AREAS_START..AREAS_START + AREA_WORDS;
pub const PLACEMENTS: Range<usize> = PLACEMENTS_START..PLACEMENTS_START + PLACEMENT_WORDS;
pub const WORD_REGIONS: [Range<usize>; 4] = [COLUMNS, ROWS, AREAS, PLACEMENTS];
/// The regions of its bytes.
pub const BYTE_REGIONS: [Range<usize>; 4] = [
    COLUMN_MARKS_START..COLUMN_MARKS_START + AXIS_MARKS,
    ROW_MARKS_START..ROW_MARKS_START + AXIS_MARKS,
    AREA_NAMES_START..AREA_NAMES_START + AREA_BYTES,
    PLACEMENT_NAMES_START..PLACEMENT_NAMES_START + PLACEMENT_BYTES,
];

const GUARD: usize = 16;

/// A buffer with guards before and after it.
#[derive(Clone, PartialEq)]
pub struct Guarded<T> {
    all: Vec<T>,
    guard: T,
}

impl<T: Copy + PartialEq> Guarded<T> {
    fn new(length: usize, value: T, guard: T) -> Self {
        let mut made = Guarded { all: Vec::new(), guard };
        made.fill_with(&vec![value; length]);
        made
    }

    /// Another content, of any length.
    pub fn fill_with(&mut self, content: &[T]) {
        let guards = [self.guard; GUARD];
        self.all.clear();
        self.all.extend([&guards, content, &guards].concat());
    }

    pub fn content(&self) -> &[T] {
        &self.all[GUARD..self.all.len() - GUARD]
    }

    pub fn content_mut(&mut self) -> &mut [T] {
        let end = self.all.len() - GUARD;
        &mut self.all[GUARD..end]
    }

    /// The content, of a length that the calls fix.
    pub fn array<const N: usize>(&self) -> &[T; N] {
        self.content().try_into().ok().expect("an array of its length")
    }

    pub fn array_mut<const N: usize>(&mut self) -> &mut [T; N] {
        self.content_mut().try_into().ok().expect("an array of its length")
    }

    /// The places of all elements.
    pub fn whole(&self) -> Range<usize> {
        0..self.content().len()
    }

    /// Another length, the guard behind the new end.
    pub fn resize(&mut self, length: usize, value: T) {
        let mut content = self.content().to_vec();
        content.resize(length, value);
        self.fill_with(&content);
    }

    /// What a faulty call would do.
    pub fn write_past(&mut self, value: T) {
        let end = self.all.len() - GUARD;
        self.all[end] = value;
    }

    pub fn read_before(&self) -> T {
        self.all[GUARD - 1]
    }

    fn set_guard(&mut self, guard: T) {
        let end = self.all.len() - GUARD;
        self.guard = guard;
        self.all[..GUARD].fill(guard);
        self.all[end..].fill(guard);
    }

    fn is_intact(&self) -> bool {
        let end = self.all.len() - GUARD;
        self.all[..GUARD].iter().chain(&self.all[end..]).all(|&found| found == self.guard)
    }
}

/// A part of a buffer that a call may write: the place of the buffer, and those of the elements.
pub type Part = (usize, Range<usize>);

/// Whether buffers hold what others do, but for these parts, at most one of each buffer.
fn same_but_for<T: Copy + PartialEq>(own: &[Guarded<T>], others: &[Guarded<T>], parts: &[Part]) -> bool {
    let none = 0..0;
    own.iter().zip(others).enumerate().all(|(at, (own, other))| {
        let part = parts.iter().find(|part| part.0 == at).map_or(&none, |part| &part.1);
        let (own, other) = (own.content(), other.content());
        own[..part.start] == other[..part.start] && own[part.end..] == other[part.end..]
    })
}

#[derive(Clone, PartialEq)]
pub struct Lent {
    pub words: [Guarded<u64>; 3],
    pub bytes: [Guarded<u8>; 7],
}

impl Lent {
    /// Every buffer filled with one byte; text, items, sheet, lines, run and lands empty.
    pub fn filled(byte: u8) -> Lent {
        let word = u64::from_ne_bytes([byte; 8]);
        let (words, bytes) = ([PANEL_WORDS, 0, 0], [PANEL_BYTES, STORE_BYTES, STORE_BYTES, 0, 0, 0, 0]);
        Lent { words: words.map(|length| Guarded::new(length, word, 0)), bytes: bytes.map(|length| Guarded::new(length, byte, 0)) }
    }

    /// The same contents between other guards.
    pub fn guarded_by(&self, byte: u8) -> Lent {
        let mut other = self.clone();
        other.words.iter_mut().for_each(|buffer| buffer.set_guard(u64::from_ne_bytes([byte; 8])));
        other.bytes.iter_mut().for_each(|buffer| buffer.set_guard(byte));
        other
    }

    pub fn guards_are_intact(&self) -> bool {
        self.words.iter().all(Guarded::is_intact) && self.bytes.iter().all(Guarded::is_intact)
    }

    /// Whether the contents are those of another, but for these parts.
    pub fn is_but_for(&self, other: &Lent, words: &[Part], bytes: &[Part]) -> bool {
        same_but_for(&self.words, &other.words, words) && same_but_for(&self.bytes, &other.bytes, bytes)
    }

    pub fn has_contents_of(&self, other: &Lent) -> bool {
        self.is_but_for(other, &[], &[])
    }

    /// Whether a store is shorter than the calls need.
    pub fn is_short(&self) -> bool {
        [COLUMN_STORE, ROW_STORE].iter().any(|&store| self.bytes[store].content().len() < STORE_BYTES)
    }
}
