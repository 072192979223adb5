//! Palgwern's calls for Rust: safe functions over the archive `libpalgwern.a`, which `tools/make palgwern` writes.
//!
//! This file is the cargo crate `palgwern`, and a module by itself too: `mod palgwern;` and `-l static=palgwern` are all that it needs.
//!
//! ```
//! use palgwern::{Axis, End, Panel};
//!
//! let sheet = "axis\tc\t43480000\tmax\tlen\t00000000
//! repeat\tc\tfill
//! name\tc\tx
//! track\tc\tlen\t42c80000\tlen\t42c80000
//! end\tc
//! place\tc\tnamed\tx\t2\tauto\t-\t0
//! ";
//! let mut panel = Panel::read(sheet)?;
//! assert_eq!(panel.size(Axis::Columns).explicit, 2);
//! assert_eq!(panel.placement(0)?.start, End::Line(2));
//! panel.enter(Axis::Columns, 3, "level")?;
//! assert!(panel.line_names(Axis::Columns).eq([(1, "x"), (2, "x"), (3, "level")]));
//! assert_eq!(panel.records(Axis::Columns).filter(|record| !record.gutter).count(), 2);
//! # Ok::<(), palgwern::Refusal>(())
//! ```
//!
//! A [`Panel`] owns the buffers that the library reads and writes and hands them over together, so what the calls ask of a caller
//! holds: initialized arrays of the right lengths that do not overlap. One thing is left to the program: 512 KiB of stack for
//! [`Panel::read`], [`Display::read`], [`Panel::try_name`], [`Answers::resolve_given`] and the calls of [`Recorded`], which every Rust thread has unless it was asked
//! for less.
//!
//! A call answers with a [`Refusal`] where its contract has one for it. Calls that have none for a panel that was read answer at once;
//! should the archive refuse one all the same, they panic, and never answer with less.
#![allow(dead_code)]
use std::fmt;
use std::ops::Deref;

/// The version of this module, of `palgwern.h` and of the package.
pub const VERSION: &str = "0.1.0";

/// Lengths of the arrays that are lent, as in `palgwern.h`.
pub const PANEL_WORDS: usize = 26_368;
pub const PANEL_BYTES: usize = 94_816;
pub const STORE_BYTES: usize = 32_768;
/// The numbers of a run of placements, and the words of a run of line names.
pub const PLACEMENT_RUN: usize = 4_096;
pub const LINE_NAME_RUN: usize = 4_096;
/// The indexes of a list of placements.
pub const HITS: usize = 512;
/// The words of the lands of cells.
pub const CELLS: usize = 256;
/// Where the regions of the words start, and their lengths.
pub const COLUMNS_START: usize = 0;
pub const ROWS_START: usize = 12_480;
pub const AREAS_START: usize = 24_960;
pub const PLACEMENTS_START: usize = 25_088;
pub const AXIS_WORDS: usize = 12_480;
pub const AREA_WORDS: usize = 128;
pub const PLACEMENT_WORDS: usize = 1_280;
/// Where the regions of the bytes start, and their lengths.
pub const COLUMN_MARKS_START: usize = 0;
pub const ROW_MARKS_START: usize = 30_000;
pub const AREA_NAMES_START: usize = 60_000;
pub const PLACEMENT_NAMES_START: usize = 62_048;
pub const AXIS_MARKS: usize = 30_000;
pub const AREA_BYTES: usize = 2_048;
pub const PLACEMENT_BYTES: usize = 32_768;
/// The most name entries of an axis.
pub const ENTRIES: usize = 4_096;
/// The words of a record.
pub const RECORD_WORDS: usize = 3;
/// The numbers of a resolved placement in a run.
pub const PLACEMENT_NUMBERS: usize = 8;

/// The space of an axis; `palgwern.h` says what the fields of an axis are.
#[repr(C)]
#[derive(Clone, Copy, Debug, Default, PartialEq, Eq)]
pub struct AxisSpace {
    pub definite: u32,
    pub inner: u32,
    pub rule: u32,
    pub gap: u64,
}

/// The components of a template, and their tracks.
#[repr(C)]
#[derive(Clone, Copy, Debug, Default, PartialEq, Eq)]
pub struct TemplateCounts {
    pub components: u32,
    pub tracks: u32,
}

/// Implicit tracks before the grid, those after it, and spare sizes.
#[repr(C)]
#[derive(Clone, Copy, Debug, Default, PartialEq, Eq)]
pub struct ImplicitCounts {
    pub negative: u32,
    pub positive: u32,
    pub spares: u32,
}

/// The repetitions of an axis's automatic repeat and its explicit count.
#[repr(C)]
#[derive(Clone, Copy, Debug, Default, PartialEq, Eq)]
pub struct AxisSize {
    pub repetitions: u32,
    pub explicit: u32,
}

/// What answers on an axis.
#[repr(C)]
#[derive(Clone, Copy, Debug, Default, PartialEq, Eq)]
pub struct AxisGrid {
    pub space: AxisSpace,
    pub template: TemplateCounts,
    pub implicit: ImplicitCounts,
    pub entries: u32,
    pub size: AxisSize,
}

/// What only an edit reads of an axis.
#[repr(C)]
#[derive(Clone, Copy, Debug, Default, PartialEq, Eq)]
pub struct AxisRoom {
    pub template: TemplateCounts,
    pub names: u32,
    pub used: u32,
    pub areas: u32,
}

/// What answers are read from, beside the tables.
#[repr(C)]
#[derive(Clone, Copy, Debug, Default, PartialEq, Eq)]
pub struct Grid {
    pub columns: AxisGrid,
    pub rows: AxisGrid,
    pub areas: u32,
    /// A cell is two of them: its columns, then its rows.
    pub placements: u32,
    /// How many cells there are, each two of the placements.
    pub cells: u32,
}

/// What only an edit reads.
#[repr(C)]
#[derive(Clone, Copy, Debug, Default, PartialEq, Eq)]
pub struct Room {
    pub columns: AxisRoom,
    pub rows: AxisRoom,
    pub areabytes: u32,
    pub placementbytes: u32,
}

/// A panel as the library has it.
#[repr(C)]
#[derive(Clone, Copy, Debug, Default, PartialEq, Eq)]
pub struct State {
    pub grid: Grid,
    pub room: Room,
}

/// The tracks of an axis: before the explicit grid, in it, and after it.
#[repr(C)]
#[derive(Clone, Copy, Debug, Default, PartialEq, Eq)]
pub struct TrackCounts {
    pub negative: u32,
    pub explicit: u32,
    pub positive: u32,
}

/// The step of a panel, and the last step of its history.
#[repr(C)]
#[derive(Clone, Copy, Debug, Default, PartialEq, Eq)]
pub struct History {
    pub step: u64,
    pub last: u64,
}

/// The number of the layout that this module declares: `layout` says that of the library.
pub const LAYOUT: u32 = 2;

/// The calls themselves and their answers, as in `palgwern.h`. A program uses [`Panel`].
pub mod raw {
    use super::*;

    #[repr(C)]
    #[derive(Clone, Copy, Debug, PartialEq, Eq)]
    pub struct SheetAnswer {
        pub number: u32,
        pub line: u32,
        pub earlier: u32,
        pub later: u32,
        pub panel: State,
    }

    #[repr(C)]
    #[derive(Clone, Copy, Debug, PartialEq, Eq)]
    pub struct DisplayAnswer {
        pub number: u32,
        pub line: u32,
        pub earlier: u32,
        pub later: u32,
        pub grid: Grid,
    }

    #[repr(C)]
    #[derive(Clone, Copy, Debug, PartialEq, Eq)]
    pub struct PanelAnswer {
        pub number: u32,
        pub line: u32,
        pub panel: State,
    }

    #[repr(C)]
    #[derive(Clone, Copy, Debug, PartialEq, Eq)]
    pub struct SizeAnswer {
        pub number: u32,
        pub repetitions: u32,
        pub explicit: u32,
    }

    #[repr(C)]
    #[derive(Clone, Copy, Debug, PartialEq, Eq)]
    pub struct CountAnswer {
        pub number: u32,
        pub count: u64,
    }

    #[repr(C)]
    #[derive(Clone, Copy, Debug, PartialEq, Eq)]
    pub struct LineAnswer {
        pub number: u32,
        pub line: i32,
    }

    #[repr(C)]
    #[derive(Clone, Copy, Debug, PartialEq, Eq)]
    pub struct NameAnswer {
        pub number: u32,
        pub offset: u32,
        pub length: u32,
    }

    #[repr(C)]
    #[derive(Clone, Copy, Debug, PartialEq, Eq)]
    pub struct CellsAnswer {
        pub number: u32,
        pub line: u32,
        pub count: u32,
    }

    #[repr(C)]
    #[derive(Clone, Copy, Debug, PartialEq, Eq)]
    pub struct TrialAnswer {
        pub number: u32,
        pub line: u32,
        pub placements: u32,
        pub cells: u32,
    }

    /// What is tried beside a name.
    #[repr(C)]
    #[derive(Clone, Copy, Debug, PartialEq, Eq)]
    pub struct Trial {
        pub axis: u32,
        pub line: u32,
        pub packing: u32,
    }

    #[repr(C)]
    #[derive(Clone, Copy, Debug, PartialEq, Eq)]
    pub struct NameEdit {
        pub axis: u32,
        pub line: u32,
    }

    #[repr(C)]
    #[derive(Clone, Copy, Debug, PartialEq, Eq)]
    pub struct EditAnswer {
        pub number: u32,
        pub line: u32,
        pub earlier: u32,
        pub later: u32,
        pub panel: State,
        pub history: History,
    }

    #[repr(C)]
    #[derive(Clone, Copy, Debug, PartialEq, Eq)]
    pub struct ResizeAnswer {
        pub number: u32,
        pub found: u32,
        pub size: u32,
    }

    #[repr(C)]
    #[derive(Clone, Copy, Debug, PartialEq, Eq)]
    pub struct PlacementAnswer {
        pub number: u32,
        pub axis: u32,
        pub startkind: u32,
        pub startnumber: i32,
        pub endkind: u32,
        pub endnumber: i32,
        pub startheld: u32,
        pub endheld: u32,
    }

    #[repr(C)]
    #[derive(Clone, Copy, Debug, PartialEq, Eq)]
    pub struct AreaAnswer {
        pub number: u32,
        pub start: u32,
        pub end: u32,
    }

    /// A placement by argument, with how many bytes of the names are those of each end.
    #[repr(C)]
    #[derive(Clone, Copy, Debug, PartialEq, Eq)]
    pub struct GivenPlacement {
        pub axis: u32,
        pub startkind: u32,
        pub startnumber: i32,
        pub startname: u32,
        pub endkind: u32,
        pub endnumber: i32,
        pub endname: u32,
    }

    #[repr(C)]
    #[derive(Clone, Copy, Debug, PartialEq, Eq)]
    pub struct GivenAnswer {
        pub number: u32,
        pub index: u32,
        pub count: u32,
    }

    #[repr(C)]
    #[derive(Clone, Copy, Debug, PartialEq, Eq)]
    pub struct GridAnswer {
        pub number: u32,
        pub grid: Grid,
    }

    #[repr(C)]
    #[derive(Clone, Copy, Debug, PartialEq, Eq)]
    pub struct ConversionAnswer {
        pub number: u32,
        pub line: i32,
        pub held: u32,
    }

    #[repr(C)]
    #[derive(Clone, Copy, Debug, PartialEq, Eq)]
    pub struct TrackAnswer {
        pub number: u32,
        pub track: i32,
    }

    #[repr(C)]
    #[derive(Clone, Copy, Debug, PartialEq, Eq)]
    pub struct LineRecordAnswer {
        pub number: u32,
        pub found: u32,
        pub place: u32,
    }

    extern "C" {
        pub fn palgwern_read_sheet(
            sheet: *const u8, sheet_bytes: usize, words: *mut [u64; PANEL_WORDS], bytes: *mut [u8; PANEL_BYTES],
            columnstore: *mut u8, columnstore_bytes: usize, rowstore: *mut u8, rowstore_bytes: usize,
        ) -> SheetAnswer;
        pub fn palgwern_display_sheet(
            sheet: *const u8, sheet_bytes: usize, words: *mut [u64; PANEL_WORDS], bytes: *mut [u8; PANEL_BYTES],
            columnstore: *mut u8, columnstore_bytes: usize, rowstore: *mut u8, rowstore_bytes: usize,
        ) -> DisplayAnswer;
        pub fn palgwern_enter_name(
            panel: State, words: *mut [u64; PANEL_WORDS], columnstore: *mut u8, columnstore_bytes: usize, rowstore: *mut u8,
            rowstore_bytes: usize, axis: u32, line: u32, name: *const u8, name_bytes: usize,
        ) -> PanelAnswer;
        pub fn palgwern_explicit_size(grid: Grid, axis: u32) -> SizeAnswer;
        pub fn palgwern_line_count(grid: Grid, axis: u32) -> CountAnswer;
        pub fn palgwern_record_count(grid: Grid, axis: u32) -> CountAnswer;
        pub fn palgwern_resolve_placement(
            grid: Grid, words: *const [u64; PANEL_WORDS], bytes: *const [u8; PANEL_BYTES], columnstore: *const u8,
            columnstore_bytes: usize, rowstore: *const u8, rowstore_bytes: usize, index: u32,
        ) -> PlacementAnswer;
        pub fn palgwern_resolve_placements(
            grid: Grid, words: *const [u64; PANEL_WORDS], bytes: *const [u8; PANEL_BYTES], columnstore: *const u8,
            columnstore_bytes: usize, rowstore: *const u8, rowstore_bytes: usize, first: u32, numbers: *mut [i32; PLACEMENT_RUN],
        ) -> CountAnswer;
        pub fn palgwern_line_name(
            grid: Grid, words: *const [u64; PANEL_WORDS], columnstore: *const u8, columnstore_bytes: usize, rowstore: *const u8,
            rowstore_bytes: usize, axis: u32, line: u32, place: u32,
        ) -> NameAnswer;
        pub fn palgwern_line_names(
            grid: Grid, words: *const [u64; PANEL_WORDS], columnstore: *const u8, columnstore_bytes: usize, rowstore: *const u8,
            rowstore_bytes: usize, axis: u32, names: *mut [u64; LINE_NAME_RUN],
        ) -> CountAnswer;
        pub fn palgwern_records(
            grid: Grid, words: *const [u64; PANEL_WORDS], axis: u32, items: *const u8, items_bytes: usize, first: u32,
            records: *mut u64, records_length: usize,
        ) -> CountAnswer;
        pub fn palgwern_nearest_line(
            grid: Grid, words: *const [u64; PANEL_WORDS], axis: u32, items: *const u8, items_bytes: usize, cursor: u32,
        ) -> LineAnswer;
        pub fn palgwern_placements_within(
            grid: Grid, words: *const [u64; PANEL_WORDS], bytes: *const [u8; PANEL_BYTES], columnstore: *const u8,
            columnstore_bytes: usize, rowstore: *const u8, rowstore_bytes: usize, axis: u32, items: *const u8, items_bytes: usize,
            low: u32, high: u32, hits: *mut [u32; HITS],
        ) -> CountAnswer;
        pub fn palgwern_placements_around(
            grid: Grid, words: *const [u64; PANEL_WORDS], bytes: *const [u8; PANEL_BYTES], columnstore: *const u8,
            columnstore_bytes: usize, rowstore: *const u8, rowstore_bytes: usize, axis: u32, items: *const u8, items_bytes: usize,
            line: i32, hits: *mut [u32; HITS],
        ) -> CountAnswer;
        pub fn palgwern_place_cells(
            grid: Grid, words: *const [u64; PANEL_WORDS], bytes: *const [u8; PANEL_BYTES], columnstore: *const u8,
            columnstore_bytes: usize, rowstore: *const u8, rowstore_bytes: usize, packing: u32, lands: *mut [u64; CELLS],
        ) -> CellsAnswer;
        pub fn palgwern_try_name(
            panel: State, words: *const [u64; PANEL_WORDS], bytes: *const [u8; PANEL_BYTES], columnstore: *const u8,
            columnstore_bytes: usize, rowstore: *const u8, rowstore_bytes: usize, trial: Trial, name: *const u8, name_bytes: usize,
            numbers: *mut [i32; PLACEMENT_RUN], lands: *mut [u64; CELLS],
        ) -> TrialAnswer;
        pub fn palgwern_edit(
            sheet: *const u8, sheet_bytes: usize, panel: State, history: History, words: *mut [u64; PANEL_WORDS],
            bytes: *mut [u8; PANEL_BYTES], columnstore: *mut u8, columnstore_bytes: usize, rowstore: *mut u8, rowstore_bytes: usize,
            lines: *mut u8, lines_bytes: usize, text: *const u8, text_bytes: usize,
        ) -> EditAnswer;
        pub fn palgwern_edit_name(
            sheet: *const u8, sheet_bytes: usize, panel: State, history: History, words: *mut [u64; PANEL_WORDS],
            bytes: *mut [u8; PANEL_BYTES], columnstore: *mut u8, columnstore_bytes: usize, rowstore: *mut u8, rowstore_bytes: usize,
            lines: *mut u8, lines_bytes: usize, entry: NameEdit, name: *const u8, name_bytes: usize,
        ) -> EditAnswer;
        pub fn palgwern_recall(
            sheet: *const u8, sheet_bytes: usize, panel: State, history: History, words: *mut [u64; PANEL_WORDS],
            bytes: *mut [u8; PANEL_BYTES], columnstore: *mut u8, columnstore_bytes: usize, rowstore: *mut u8, rowstore_bytes: usize,
            lines: *const u8, lines_bytes: usize, step: u64,
        ) -> EditAnswer;
        pub fn palgwern_least_resize(grid: Grid, words: *const [u64; PANEL_WORDS], axis: u32) -> ResizeAnswer;
        pub fn palgwern_drawn_area(
            grid: Grid, words: *const [u64; PANEL_WORDS], bytes: *const [u8; PANEL_BYTES], axis: u32, name: *const u8,
            name_bytes: usize,
        ) -> AreaAnswer;
        pub fn palgwern_named_area(
            grid: Grid, words: *const [u64; PANEL_WORDS], bytes: *const [u8; PANEL_BYTES], columnstore: *const u8,
            columnstore_bytes: usize, rowstore: *const u8, rowstore_bytes: usize, axis: u32, name: *const u8, name_bytes: usize,
        ) -> AreaAnswer;
        pub fn palgwern_size_at(panel: State, words: *const [u64; PANEL_WORDS], axis: u32, inner: u32) -> SizeAnswer;
        pub fn palgwern_resize(
            panel: State, words: *mut [u64; PANEL_WORDS], columnstore: *const u8, columnstore_bytes: usize, rowstore: *const u8,
            rowstore_bytes: usize, axis: u32, inner: u32,
        ) -> PanelAnswer;
        pub fn palgwern_resolve_given(
            grid: Grid, words: *const [u64; PANEL_WORDS], bytes: *const [u8; PANEL_BYTES], columnstore: *const u8,
            columnstore_bytes: usize, rowstore: *const u8, rowstore_bytes: usize, given: *const GivenPlacement, given_length: usize,
            names: *const u8, names_bytes: usize, numbers: *mut [i32; PLACEMENT_RUN],
        ) -> GivenAnswer;
        pub fn palgwern_with_implicit(grid: Grid, axis: u32, negative: u32, positive: u32) -> GridAnswer;
        pub fn palgwern_into_origin_zero_line(line: i32, tracks: u32) -> ConversionAnswer;
        pub fn palgwern_into_grid_line(line: i32, tracks: u32) -> LineAnswer;
        pub fn palgwern_next_track(counts: TrackCounts, line: i32) -> TrackAnswer;
        pub fn palgwern_previous_line(counts: TrackCounts, track: u32) -> LineAnswer;
        pub fn palgwern_line_record(counts: TrackCounts, line: i32) -> LineRecordAnswer;
        pub fn palgwern_layout() -> u32;
    }
}

const _: () = assert!(size_of::<AxisGrid>() == 56 && size_of::<AxisRoom>() == 20);
const _: () = assert!(size_of::<Grid>() == 128 && size_of::<Room>() == 48 && size_of::<State>() == 176);
const _: () = assert!(size_of::<raw::PanelAnswer>() == 184 && size_of::<raw::CountAnswer>() == 16);
const _: () = assert!(size_of::<raw::SheetAnswer>() == 192 && size_of::<raw::DisplayAnswer>() == 144);
const _: () = assert!(size_of::<raw::SizeAnswer>() == 12 && size_of::<raw::NameAnswer>() == 12 && size_of::<raw::LineAnswer>() == 8 && size_of::<raw::PlacementAnswer>() == 32);
const _: () = assert!(size_of::<raw::ResizeAnswer>() == 12 && size_of::<raw::CellsAnswer>() == 12);
const _: () = assert!(size_of::<TrackCounts>() == 12 && size_of::<raw::ConversionAnswer>() == 12);
const _: () = assert!(size_of::<raw::AreaAnswer>() == 12);
const _: () = assert!(size_of::<raw::Trial>() == 12 && size_of::<raw::TrialAnswer>() == 16);
const _: () = assert!(size_of::<History>() == 16 && size_of::<raw::NameEdit>() == 8 && size_of::<raw::EditAnswer>() == 208);
const _: () = assert!(size_of::<raw::GivenPlacement>() == 28 && size_of::<raw::GivenAnswer>() == 12);
const _: () = assert!(size_of::<raw::GridAnswer>() == 136);
const _: () = assert!(size_of::<raw::TrackAnswer>() == 8 && size_of::<raw::LineRecordAnswer>() == 12);

/// A refusal by its word in the table of refusals.
#[derive(Clone, Copy, Debug, PartialEq, Eq)]
pub enum Word {
    Unread = 1,
    Name = 2,
    Value = 3,
    Count = 4,
    Area = 5,
    Twice = 6,
    Late = 7,
    Crowded = 8,
    ZeroLine = 9,
    Short = 10,
    Indefinite = 11,
    Overlap = 12,
    Unequal = 13,
    Broken = 14,
    Unplaced = 15,
    HistoryFull = 16,
    NoStep = 17,
}

/// Two areas that share a cell, numbered from 1 in sheet order.
#[derive(Clone, Copy, Debug, PartialEq, Eq)]
pub struct Pair {
    pub earlier: u32,
    pub later: u32,
}

impl Pair {
    /// A pair, or none where the numbers are 0.
    fn of(earlier: u32, later: u32) -> Option<Pair> {
        if later == 0 { None } else { Some(Pair { earlier, later }) }
    }
}

/// A refusal: its word and the sheet's line ([`Word::Unplaced`] has the cell's), 0 for each other call without a sheet, for a sheet too
/// long, for [`Word::Short`] and for [`Word::Indefinite`]. [`Word::Overlap`] comes with the first two areas that share a cell.
#[derive(Clone, Copy, Debug, PartialEq, Eq)]
pub struct Refusal {
    pub word: Word,
    pub line: u32,
    pub pair: Option<Pair>,
}

/// The refusals with their words as they are written.
const WORDS: [(Word, &str); 17] = [
    (Word::Unread, "unread"),
    (Word::Name, "name"),
    (Word::Value, "value"),
    (Word::Count, "count"),
    (Word::Area, "area"),
    (Word::Twice, "twice"),
    (Word::Late, "late"),
    (Word::Crowded, "crowded"),
    (Word::ZeroLine, "zero line"),
    (Word::Short, "short"),
    (Word::Indefinite, "indefinite"),
    (Word::Overlap, "overlap"),
    (Word::Unequal, "unequal"),
    (Word::Broken, "broken"),
    (Word::Unplaced, "unplaced"),
    (Word::HistoryFull, "history full"),
    (Word::NoStep, "no step"),
];

impl fmt::Display for Word {
    fn fmt(&self, f: &mut fmt::Formatter) -> fmt::Result {
        f.write_str(WORDS[*self as usize - 1].1)
    }
}

impl Refusal {
    /// Its number in the table of refusals.
    pub fn number(self) -> u32 {
        self.word as u32
    }

    fn of(number: u32, line: u32) -> Refusal {
        Refusal { word: WORDS[number as usize - 1].0, line, pair: None }
    }
}

impl fmt::Display for Refusal {
    fn fmt(&self, f: &mut fmt::Formatter) -> fmt::Result {
        write!(f, "refused by {} ({})", self.number(), self.word)?;
        if self.line != 0 {
            write!(f, " at line {}", self.line)?;
        }
        match self.pair {
            Some(Pair { earlier, later }) => write!(f, ": areas {earlier} and {later}"),
            None => Ok(()),
        }
    }
}

impl std::error::Error for Refusal {}

/// An axis of a grid.
#[derive(Clone, Copy, Debug, PartialEq, Eq)]
pub enum Axis {
    Columns = 0,
    Rows = 1,
}

/// The edges that names make of an area, each a line numbered from 1, where there is one.
#[derive(Clone, Copy, Debug, PartialEq, Eq)]
pub struct AreaEdges {
    pub start: Option<u32>,
    pub end: Option<u32>,
}

/// An origin-zero line, and whether it was held within -10,000..10,000.
#[derive(Clone, Copy, Debug, PartialEq, Eq)]
pub struct OriginZeroLine {
    pub line: i32,
    pub held: bool,
}

/// The number of the layout that the library was made with: `LAYOUT`, where it was made with this module.
pub fn layout() -> u32 {
    // SAFETY: numbers only.
    unsafe { raw::palgwern_layout() }
}

/// The origin-zero line of a grid line beside so many explicit tracks. `Word::Count` for more than 10,000 tracks or a line outside
/// -32,768..32,767, then `Word::ZeroLine` for line 0.
pub fn into_origin_zero_line(line: i32, tracks: u32) -> Result<OriginZeroLine, Refusal> {
    // SAFETY: numbers only.
    let answer = unsafe { raw::palgwern_into_origin_zero_line(line, tracks) };
    refused_or(answer.number, OriginZeroLine { line: answer.line, held: answer.held != 0 })
}

/// The grid line of an origin-zero line beside so many explicit tracks. `Word::Count` for more than 10,000 tracks or a line outside
/// -10,000..10,000, as in the methods of `TrackCounts`.
pub fn into_grid_line(line: i32, tracks: u32) -> Result<i32, Refusal> {
    // SAFETY: numbers only.
    let answer = unsafe { raw::palgwern_into_grid_line(line, tracks) };
    refused_or(answer.number, answer.line)
}

/// An answer, or its refusal by number.
fn refused_or<T>(number: u32, answer: T) -> Result<T, Refusal> {
    match number {
        0 => Ok(answer),
        number => Err(Refusal::of(number, 0)),
    }
}

impl TrackCounts {
    /// The track after an origin-zero line, counted from the first of the axis, 0; negative before it.
    pub fn next_track(self, line: i32) -> Result<i32, Refusal> {
        // SAFETY: numbers only.
        let answer = unsafe { raw::palgwern_next_track(self, line) };
        refused_or(answer.number, answer.track)
    }

    /// The origin-zero line before a track, counted from the first of the axis, 0. `Word::Count` for a track above 30,000 too.
    pub fn previous_line(self, track: u32) -> Result<i32, Refusal> {
        // SAFETY: numbers only.
        let answer = unsafe { raw::palgwern_previous_line(self, track) };
        refused_or(answer.number, answer.line)
    }

    /// The place of the gutter of an origin-zero line among the records of the axis; none where the axis does not have the line.
    pub fn line_record(self, line: i32) -> Result<Option<u32>, Refusal> {
        // SAFETY: numbers only.
        let answer = unsafe { raw::palgwern_line_record(self, line) };
        refused_or(answer.number, (answer.found != 0).then_some(answer.place))
    }
}

/// One end of a resolved placement.
#[derive(Clone, Copy, Debug, PartialEq, Eq)]
pub enum End {
    Auto,
    Line(i16),
    Span(u16),
}

/// A resolved placement. An end is marked where its line was held within -10,000..10,000 of the first explicit line, or a line on the
/// way to it was: without a mark it would be the same if lines were never held.
#[derive(Clone, Copy, Debug, PartialEq, Eq)]
pub struct Placement {
    pub axis: Axis,
    /// Whether it is one of a cell's two: then its ends are the cell's settled fields.
    pub cell: bool,
    pub start: End,
    pub end: End,
    pub startheld: bool,
    pub endheld: bool,
}

/// An end of a placement by argument, as the fields of a `place` line say it.
#[derive(Clone, Copy, Debug, PartialEq, Eq)]
pub enum GivenEnd<'a> {
    Auto,
    Line(i16),
    Named(&'a [u8], i16),
    Span(u16),
    NamedSpan(&'a [u8], u16),
}

impl<'a> GivenEnd<'a> {
    /// Its kind, its number and its name, 0 and empty where it has none.
    fn parts(self) -> (u32, i32, &'a [u8]) {
        match self {
            GivenEnd::Auto => (0, 0, b""),
            GivenEnd::Line(line) => (1, line.into(), b""),
            GivenEnd::Named(name, line) => (2, line.into(), name),
            GivenEnd::Span(span) => (3, span.into(), b""),
            GivenEnd::NamedSpan(name, span) => (4, span.into(), name),
        }
    }
}

/// A placement that no sheet lists.
#[derive(Clone, Copy, Debug, PartialEq, Eq)]
pub struct Given<'a> {
    pub axis: Axis,
    pub start: GivenEnd<'a>,
    pub end: GivenEnd<'a>,
}

/// Why placements by argument are refused: the word, and the placement that has it, from 0; 0 where the call as a whole is refused.
#[derive(Clone, Copy, Debug, PartialEq, Eq)]
pub struct GivenRefusal {
    pub word: Word,
    pub index: usize,
}

impl fmt::Display for GivenRefusal {
    fn fmt(&self, f: &mut fmt::Formatter) -> fmt::Result {
        write!(f, "placement {} refused by {} ({})", self.index, self.word as u32, self.word)
    }
}

impl std::error::Error for GivenRefusal {}

/// How cells are packed.
#[derive(Clone, Copy, Debug, PartialEq, Eq)]
pub enum Packing {
    /// No automatic cell lands before the one placed last.
    Sparse = 0,
    /// Each takes the first place that is free.
    Dense = 1,
}

/// Where a cell lands: between two column lines and two row lines, the first line of an axis being 1.
#[derive(Clone, Copy, Debug, PartialEq, Eq)]
pub struct Land {
    pub columns: [u16; 2],
    pub rows: [u16; 2],
}

impl Land {
    /// A land from its word.
    pub fn of(word: u64) -> Land {
        let line = |at: u32| (word >> (16 * at)) as u16;
        Land { columns: [line(0), line(1)], rows: [line(2), line(3)] }
    }
}

/// What a panel would answer with one more name: all placements with their names resolved, and where each cell would land.
#[derive(Clone, Debug, PartialEq, Eq)]
pub struct Tried {
    pub placements: Vec<Placement>,
    pub lands: Vec<Land>,
}

/// The minimum or the maximum of a track.
#[derive(Clone, Copy, Debug, PartialEq)]
pub enum Size {
    Length(f32),
    Percent(f32),
    Fraction(f32),
    Auto,
    MinContent,
    MaxContent,
    FitContentLength(f32),
    FitContentPercent(f32),
}

impl Size {
    fn of(word: u64) -> Size {
        let value = f32::from_bits(word as u32);
        match word >> 32 {
            0 => Size::Length(value),
            1 => Size::Percent(value),
            2 => Size::Fraction(value),
            4 => Size::MinContent,
            5 => Size::MaxContent,
            6 => Size::FitContentLength(value),
            7 => Size::FitContentPercent(value),
            _ => Size::Auto,
        }
    }
}

/// Where a record came from, whether it is collapsed or not.
#[derive(Clone, Copy, Debug, PartialEq, Eq)]
pub enum Source {
    /// Implicit, before the explicit grid.
    Negative = 0,
    /// A single or a counted repeat.
    Template = 1,
    /// An automatic repeat.
    Automatic = 2,
    /// Explicit by areas alone.
    Area = 3,
    /// Implicit, after the explicit grid.
    Positive = 4,
    /// No track.
    Gutter = 5,
}

impl Source {
    fn of(word: u64) -> Source {
        match word >> 2 & 7 {
            0 => Source::Negative,
            1 => Source::Template,
            2 => Source::Automatic,
            3 => Source::Area,
            4 => Source::Positive,
            _ => Source::Gutter,
        }
    }
}

/// A track record.
#[derive(Clone, Copy, Debug, PartialEq)]
pub struct Record {
    pub gutter: bool,
    pub collapsed: bool,
    pub minimum: Size,
    pub maximum: Size,
    pub source: Source,
}

impl Record {
    /// A record from its words.
    pub fn of(words: &[u64; RECORD_WORDS]) -> Record {
        let (minimum, maximum) = (Size::of(words[1]), Size::of(words[2]));
        Record { gutter: words[0] & 1 != 0, collapsed: words[0] & 2 != 0, minimum, maximum, source: Source::of(words[0]) }
    }
}

/// What answers, with the buffers that the library keeps it in: every call but the edits. Two are equal where every word and byte of
/// them is. `Debug` shows numbers alone, and no buffer.
#[derive(Clone, PartialEq, Eq)]
pub struct Answers {
    grid: Grid,
    words: Box<[u64; PANEL_WORDS]>,
    bytes: Box<[u8; PANEL_BYTES]>,
    columnstore: Box<[u8; STORE_BYTES]>,
    rowstore: Box<[u8; STORE_BYTES]>,
}

/// A panel: what answers, and what edits it.
#[derive(Clone, Debug, PartialEq, Eq)]
pub struct Panel {
    answers: Answers,
    room: Room,
}

/// A panel that is edited through a history: its sheet, the panel of its step, and a line for each edit. It answers as a [`Panel`] does;
/// every edit comes through it, so an earlier step can be brought back.
///
/// ```
/// # use palgwern::{Axis, End, Recorded};
/// let mut panel = Recorded::read("track\tc\tauto\t00000000\tauto\t00000000\n", 100)?;
/// panel.edit("place\tc\tnamed\tx\t1\tauto\t-\t0")?;
/// let stored = panel.step();
/// panel.edit_name(Axis::Columns, 1, "x")?;
/// assert_eq!(panel.placement(0)?.start, End::Line(1));
/// panel.recall(stored)?;
/// assert_eq!(panel.placement(0)?.start, End::Line(3));
/// # Ok::<(), palgwern::Refusal>(())
/// ```
#[derive(Clone, PartialEq, Eq)]
pub struct Recorded {
    sheet: Vec<u8>,
    panel: Panel,
    history: History,
    lines: Vec<u8>,
}

/// A panel for display, whose areas may share cells: what answers, and nothing to edit.
#[derive(Clone, Debug, PartialEq, Eq)]
pub struct Display {
    answers: Answers,
    pair: Option<Pair>,
}

impl fmt::Debug for Answers {
    fn fmt(&self, f: &mut fmt::Formatter) -> fmt::Result {
        f.debug_struct("Answers").field("grid", &self.grid).finish_non_exhaustive()
    }
}

impl fmt::Debug for Recorded {
    fn fmt(&self, f: &mut fmt::Formatter) -> fmt::Result {
        f.debug_struct("Recorded").field("panel", &self.panel).field("history", &self.history).finish_non_exhaustive()
    }
}

impl Deref for Display {
    type Target = Answers;

    fn deref(&self) -> &Answers {
        &self.answers
    }
}

impl Display {
    /// The panel that a sheet describes, under the rule by which areas may share cells.
    pub fn read(sheet: impl AsRef<[u8]>) -> Result<Display, Refusal> {
        let (sheet, mut held) = (sheet.as_ref(), Answers::empty());
        // SAFETY: as in `Panel::read_again`.
        let answer = unsafe {
            raw::palgwern_display_sheet(
                sheet.as_ptr(), sheet.len(), &mut *held.words, &mut *held.bytes, held.columnstore.as_mut_ptr(), STORE_BYTES,
                held.rowstore.as_mut_ptr(), STORE_BYTES,
            )
        };
        accepted(answer.number, answer.line)?;
        held.grid = answer.grid;
        Ok(Display { answers: held, pair: Pair::of(answer.earlier, answer.later) })
    }

    /// The first two areas that share a cell.
    pub fn overlap(&self) -> Option<Pair> {
        self.pair
    }
}

impl Deref for Panel {
    type Target = Answers;

    fn deref(&self) -> &Answers {
        &self.answers
    }
}

/// A zeroed array, made on the heap.
fn zeroed<T: Copy + Default, const N: usize>() -> Box<[T; N]> {
    vec![T::default(); N].into_boxed_slice().try_into().ok().unwrap()
}

/// Part `at` of numbers that come N by N.
fn part<T, const N: usize>(numbers: &[T], at: usize) -> &[T; N] {
    numbers[at * N..][..N].try_into().unwrap()
}

/// An end by its kind and number.
fn end_of(kind: u32, number: i32) -> End {
    match kind {
        1 => End::Line(number as i16),
        3 => End::Span(number as u16),
        _ => End::Auto,
    }
}

/// Whether a number is that of no refusal.
fn accepted(number: u32, line: u32) -> Result<(), Refusal> {
    match number {
        0 => Ok(()),
        _ => Err(Refusal::of(number, line)),
    }
}

/// The axis of a placement, and whether it is one of a cell's two.
fn axis_of(number: u32) -> (Axis, bool) {
    (if number & 1 == 0 { Axis::Columns } else { Axis::Rows }, number & 2 != 0)
}

/// A count, or its refusal.
fn counted(answer: raw::CountAnswer) -> Result<usize, Refusal> {
    accepted(answer.number, 0).map(|()| answer.count as usize)
}

/// What a call answers that has no refusal for a panel that was read.
fn answered<T>(answer: Result<T, Refusal>) -> T {
    answer.unwrap_or_else(|refusal| panic!("a panel that was read is answered by its contract, but was {refusal}"))
}

impl Placement {
    /// A placement from its numbers in a run.
    pub fn of(numbers: &[i32; PLACEMENT_NUMBERS]) -> Placement {
        let [_, axis, startkind, startnumber, endkind, endnumber, startheld, endheld] = *numbers;
        let (axis, cell) = axis_of(axis as u32);
        let (start, end) = (end_of(startkind as u32, startnumber), end_of(endkind as u32, endnumber));
        Placement { axis, cell, start, end, startheld: startheld != 0, endheld: endheld != 0 }
    }
}

impl Panel {
    /// The panel that a sheet describes.
    pub fn read(sheet: impl AsRef<[u8]>) -> Result<Panel, Refusal> {
        let mut panel = Panel::empty();
        panel.read_again(sheet)?;
        Ok(panel)
    }

    /// The panel of the empty sheet.
    pub fn empty() -> Panel {
        Panel { answers: Answers::empty(), room: Room::default() }
    }

    /// Reads another sheet into the same buffers. On a refusal the panel stays.
    pub fn read_again(&mut self, sheet: impl AsRef<[u8]>) -> Result<(), Refusal> {
        let (sheet, held) = (sheet.as_ref(), &mut self.answers);
        // SAFETY: the arrays are initialized boxes of their own, each of the length that its type says.
        let answer = unsafe {
            raw::palgwern_read_sheet(
                sheet.as_ptr(), sheet.len(), &mut *held.words, &mut *held.bytes, held.columnstore.as_mut_ptr(), STORE_BYTES,
                held.rowstore.as_mut_ptr(), STORE_BYTES,
            )
        };
        let pair = Pair::of(answer.earlier, answer.later);
        self.after(answer.number, answer.line, answer.panel).map_err(|refusal| Refusal { pair, ..refusal })
    }

    /// Enters a line and a name in an axis. On a refusal the panel stays.
    pub fn enter(&mut self, axis: Axis, line: u32, name: impl AsRef<[u8]>) -> Result<(), Refusal> {
        let (state, name) = (self.state(), name.as_ref());
        let held = &mut self.answers;
        // SAFETY: as above.
        let answer = unsafe {
            raw::palgwern_enter_name(
                state, &mut *held.words, held.columnstore.as_mut_ptr(), STORE_BYTES, held.rowstore.as_mut_ptr(), STORE_BYTES,
                axis as u32, line, name.as_ptr(), name.len(),
            )
        };
        self.after(answer.number, answer.line, answer.panel)
    }

    /// What [`Answers::resolved`] and [`Answers::place_cells`] would answer with a line and a name entered in an axis, or the refusal: the
    /// entry's, or `Word::Unplaced` with the line of the first cell in placing order that would have no place. The panel stays.
    pub fn try_name(&self, axis: Axis, line: u32, name: impl AsRef<[u8]>, packing: Packing) -> Result<Tried, Refusal> {
        let (mut numbers, mut lands) = (zeroed(), [0; CELLS]);
        let (placements, cells) = self.write_trial(axis, line, name, packing, &mut numbers, &mut lands)?;
        let placements = (0..placements).map(|at| Placement::of(part(&*numbers, at))).collect();
        Ok(Tried { placements, lands: lands[..cells].iter().map(|word| Land::of(*word)).collect() })
    }

    /// Writes the same, eight numbers for each placement and a word for each cell; answers how many of each. On a refusal nothing is
    /// written.
    pub fn write_trial(
        &self, axis: Axis, line: u32, name: impl AsRef<[u8]>, packing: Packing, numbers: &mut [i32; PLACEMENT_RUN],
        lands: &mut [u64; CELLS],
    ) -> Result<(usize, usize), Refusal> {
        let (trial, name) = (raw::Trial { axis: axis as u32, line, packing: packing as u32 }, name.as_ref());
        // SAFETY: as in `Panel::read_again`; `numbers` and `lands` are borrowed mutably, so they are none of the others.
        let answer = unsafe {
            raw::palgwern_try_name(
                self.state(), &*self.words, &*self.bytes, self.columnstore.as_ptr(), STORE_BYTES, self.rowstore.as_ptr(), STORE_BYTES,
                trial, name.as_ptr(), name.len(), numbers, lands,
            )
        };
        accepted(answer.number, answer.line).map(|()| (answer.placements as usize, answer.cells as usize))
    }

    /// The panel after an edit, or as it was.
    fn after(&mut self, number: u32, line: u32, state: State) -> Result<(), Refusal> {
        accepted(number, line)?;
        (self.answers.grid, self.room) = (state.grid, state.room);
        Ok(())
    }

    /// The repetitions and the explicit count that an axis would have at another inner size, those of the same sheet with that size; the
    /// panel stays. `Word::Value` where `inner` is no length from 0 to 65,535, `Word::Count` for more than 10,000 explicit tracks.
    pub fn size_at(&self, axis: Axis, inner: f32) -> Result<AxisSize, Refusal> {
        // SAFETY: as in `Panel::read_again`; nothing is written.
        let answer = unsafe { raw::palgwern_size_at(self.state(), &*self.words, axis as u32, inner.to_bits()) };
        refused_or(answer.number, AxisSize { repetitions: answer.repetitions, explicit: answer.explicit })
    }

    /// Gives an axis another inner size: the panel is then that of the same sheet with it, followed by the same accepted entries. On a
    /// refusal the panel stays. `Word::Value` where `inner` is no length from 0 to 65,535, `Word::Count` for more than 10,000 explicit
    /// tracks, `Word::Crowded` for more than 4,096 entries.
    pub fn resize(&mut self, axis: Axis, inner: f32) -> Result<(), Refusal> {
        let state = self.state();
        let held = &mut self.answers;
        // SAFETY: as in `Panel::read_again`; the stores are read alone.
        let answer = unsafe {
            raw::palgwern_resize(
                state, &mut *held.words, held.columnstore.as_ptr(), STORE_BYTES, held.rowstore.as_ptr(), STORE_BYTES, axis as u32,
                inner.to_bits(),
            )
        };
        self.after(answer.number, answer.line, answer.panel)
    }

    /// The panel as the library has it.
    pub fn state(&self) -> State {
        State { grid: self.answers.grid, room: self.room }
    }
}

impl Deref for Recorded {
    type Target = Panel;

    fn deref(&self) -> &Panel {
        &self.panel
    }
}

impl Recorded {
    /// The panel that a sheet describes, at step 0, with a history of so many bytes.
    pub fn read(sheet: impl Into<Vec<u8>>, bytes: usize) -> Result<Recorded, Refusal> {
        let sheet = sheet.into();
        Ok(Recorded { panel: Panel::read(&sheet)?, sheet, history: History::default(), lines: vec![0; bytes] })
    }

    /// Edits the panel by a line of a sheet, `area`, `track` or `place`, or by `enter`, axis, line and name, parted by tabs and without a line
    /// feed: the line of the next step, and the later steps are dropped. [`Word::HistoryFull`] where it does not fit. On a refusal all stays.
    pub fn edit(&mut self, text: impl AsRef<[u8]>) -> Result<(), Refusal> {
        let (state, text) = (self.panel.state(), text.as_ref());
        let held = &mut self.panel.answers;
        // SAFETY: as in `Panel::read_again`; the sheet and the lines are vectors of their own.
        let answer = unsafe {
            raw::palgwern_edit(
                self.sheet.as_ptr(), self.sheet.len(), state, self.history, &mut *held.words, &mut *held.bytes,
                held.columnstore.as_mut_ptr(), STORE_BYTES, held.rowstore.as_mut_ptr(), STORE_BYTES, self.lines.as_mut_ptr(),
                self.lines.len(), text.as_ptr(), text.len(),
            )
        };
        self.after(answer)
    }

    /// Enters a line and a name in an axis: the edit of an `enter` line.
    pub fn edit_name(&mut self, axis: Axis, line: u32, name: impl AsRef<[u8]>) -> Result<(), Refusal> {
        let (state, entry, name) = (self.panel.state(), raw::NameEdit { axis: axis as u32, line }, name.as_ref());
        let held = &mut self.panel.answers;
        // SAFETY: as in `edit`.
        let answer = unsafe {
            raw::palgwern_edit_name(
                self.sheet.as_ptr(), self.sheet.len(), state, self.history, &mut *held.words, &mut *held.bytes,
                held.columnstore.as_mut_ptr(), STORE_BYTES, held.rowstore.as_mut_ptr(), STORE_BYTES, self.lines.as_mut_ptr(),
                self.lines.len(), entry, name.as_ptr(), name.len(),
            )
        };
        self.after(answer)
    }

    /// Brings back the panel of a step, that of the sheet and the first edits alone; the later ones stay until a new edit.
    /// [`Word::NoStep`] above the last step. On a refusal all stays.
    pub fn recall(&mut self, step: u64) -> Result<(), Refusal> {
        let state = self.panel.state();
        let held = &mut self.panel.answers;
        // SAFETY: as in `edit`; the lines are only read.
        let answer = unsafe {
            raw::palgwern_recall(
                self.sheet.as_ptr(), self.sheet.len(), state, self.history, &mut *held.words, &mut *held.bytes,
                held.columnstore.as_mut_ptr(), STORE_BYTES, held.rowstore.as_mut_ptr(), STORE_BYTES, self.lines.as_ptr(),
                self.lines.len(), step,
            )
        };
        self.after(answer)
    }

    /// The panel and the step after a call, or as they were.
    fn after(&mut self, answer: raw::EditAnswer) -> Result<(), Refusal> {
        let pair = Pair::of(answer.earlier, answer.later);
        self.panel.after(answer.number, answer.line, answer.panel).map_err(|refusal| Refusal { pair, ..refusal })?;
        self.history = answer.history;
        Ok(())
    }

    /// The step of the panel: how many edits it has.
    pub fn step(&self) -> u64 {
        self.history.step
    }

    /// The last step that can be recalled.
    pub fn steps(&self) -> u64 {
        self.history.last
    }

    /// The bytes of the history: a line for each step, and what lies past them.
    pub fn lines(&self) -> &[u8] {
        &self.lines
    }
}

impl Answers {
    /// Those of the empty sheet.
    fn empty() -> Answers {
        Answers { grid: Grid::default(), words: zeroed(), bytes: zeroed(), columnstore: zeroed(), rowstore: zeroed() }
    }

    /// The repetitions and the explicit count of an axis.
    pub fn size(&self, axis: Axis) -> AxisSize {
        // SAFETY: numbers only.
        let answer = unsafe { raw::palgwern_explicit_size(self.grid, axis as u32) };
        answered(accepted(answer.number, 0));
        AxisSize { repetitions: answer.repetitions, explicit: answer.explicit }
    }

    /// The tracks of an axis as counts.
    pub fn track_counts(&self, axis: Axis) -> TrackCounts {
        let own = if axis == Axis::Columns { self.grid.columns } else { self.grid.rows };
        TrackCounts { negative: own.implicit.negative, explicit: own.size.explicit, positive: own.implicit.positive }
    }

    /// How many placements there are; a cell is two of them, its columns and then its rows.
    pub fn placements(&self) -> u32 {
        self.grid.placements
    }

    /// Placement `index`, from 0, with its names resolved; [`Word::Count`] where there is none.
    pub fn placement(&self, index: u32) -> Result<Placement, Refusal> {
        // SAFETY: as in `Panel::read_again`; nothing is written.
        let answer = unsafe {
            raw::palgwern_resolve_placement(
                self.grid, &*self.words, &*self.bytes, self.columnstore.as_ptr(), STORE_BYTES, self.rowstore.as_ptr(), STORE_BYTES,
                index,
            )
        };
        accepted(answer.number, 0)?;
        let (axis, cell) = axis_of(answer.axis);
        let (start, end) = (end_of(answer.startkind, answer.startnumber), end_of(answer.endkind, answer.endnumber));
        Ok(Placement { axis, cell, start, end, startheld: answer.startheld != 0, endheld: answer.endheld != 0 })
    }

    /// All placements with their names resolved, in one run: the answers of [`Answers::placement`], with the names grouped once.
    pub fn resolved(&self) -> impl ExactSizeIterator<Item = Placement> {
        let mut numbers = zeroed();
        // Of no placements the first is none.
        let written = if self.placements() == 0 { 0 } else { answered(self.write_placements(0, &mut numbers)) };
        (0..written).map(move |at| Placement::of(part(&*numbers, at)))
    }

    /// Writes placements from `first` on, as many as there are, eight numbers each; answers how many. [`Word::Count`] where `first` is
    /// no placement.
    pub fn write_placements(&self, first: u32, numbers: &mut [i32; PLACEMENT_RUN]) -> Result<usize, Refusal> {
        // SAFETY: as in `Panel::read_again`; `numbers` is borrowed mutably, so it is none of the others.
        let answer = unsafe {
            raw::palgwern_resolve_placements(
                self.grid, &*self.words, &*self.bytes, self.columnstore.as_ptr(), STORE_BYTES, self.rowstore.as_ptr(), STORE_BYTES,
                first, numbers,
            )
        };
        counted(answer)
    }

    /// Placements by argument with their names resolved, as `place` lines after those of the sheet would be; the panel stays. `Word::Name`
    /// at the first with a name that is none, `Word::Crowded` for more than 256.
    pub fn resolve_given(&self, given: &[Given]) -> Result<Vec<Placement>, GivenRefusal> {
        let mut numbers = zeroed();
        let written = self.write_given(given, &mut numbers)?;
        Ok((0..written).map(|at| Placement::of(part(&*numbers, at))).collect())
    }

    /// Writes the same, eight numbers each; answers how many. On a refusal nothing is written.
    pub fn write_given(&self, given: &[Given], numbers: &mut [i32; PLACEMENT_RUN]) -> Result<usize, GivenRefusal> {
        let mut names = Vec::new();
        let mut lent = Vec::with_capacity(given.len());
        for one in given {
            let ((startkind, startnumber, start), (endkind, endnumber, end)) = (one.start.parts(), one.end.parts());
            names.extend_from_slice(start);
            names.extend_from_slice(end);
            let [startname, endname] = [start, end].map(|name| u32::try_from(name.len()).unwrap_or(u32::MAX));
            lent.push(raw::GivenPlacement { axis: one.axis as u32, startkind, startnumber, startname, endkind, endnumber, endname });
        }
        // SAFETY: as in `write_placements`; `lent` and `names` are vectors of their own.
        let answer = unsafe {
            raw::palgwern_resolve_given(
                self.grid, &*self.words, &*self.bytes, self.columnstore.as_ptr(), STORE_BYTES, self.rowstore.as_ptr(), STORE_BYTES,
                lent.as_ptr(), lent.len(), names.as_ptr(), names.len(), numbers,
            )
        };
        match answer.number {
            0 => Ok(answer.count as usize),
            number => Err(GivenRefusal { word: Refusal::of(number, 0).word, index: answer.index as usize }),
        }
    }

    /// What would answer with so many implicit tracks before and after the explicit ones of an axis, as an `extra` line gives them: all
    /// buffers are copied. `Word::Count` for more than 10,000.
    pub fn with_implicit(&self, axis: Axis, negative: u32, positive: u32) -> Result<Answers, Refusal> {
        // SAFETY: numbers only.
        let answer = unsafe { raw::palgwern_with_implicit(self.grid, axis as u32, negative, positive) };
        accepted(answer.number, 0)?;
        Ok(Answers { grid: answer.grid, ..self.clone() })
    }

    /// The placements of an axis with both lines within a span of pixels, its ends included, by their indexes, ascending; none where
    /// `low` lies above `high`. [`Word::Value`] where an end is no length, [`Word::Indefinite`] where a track or gutter has no definite
    /// size.
    pub fn within(&self, axis: Axis, low: f32, high: f32) -> Result<impl ExactSizeIterator<Item = u32>, Refusal> {
        let (items, mut hits) = (self.items(axis), [0; HITS]);
        // SAFETY: as in `Panel::read_again`; `hits` is a local of its own.
        let answer = unsafe {
            raw::palgwern_placements_within(
                self.grid, &*self.words, &*self.bytes, self.columnstore.as_ptr(), STORE_BYTES, self.rowstore.as_ptr(), STORE_BYTES,
                axis as u32, items.as_ptr(), items.len(), low.to_bits(), high.to_bits(), &mut hits,
            )
        };
        counted(answer).map(|count| hits.into_iter().take(count))
    }

    /// The placements of an axis with a grid line strictly between their own lines, by their indexes, ascending. [`Word::ZeroLine`] for
    /// line 0, [`Word::Indefinite`] where a track or gutter has no definite size.
    pub fn around(&self, axis: Axis, line: i16) -> Result<impl ExactSizeIterator<Item = u32>, Refusal> {
        let (items, mut hits) = (self.items(axis), [0; HITS]);
        // SAFETY: as in `within`.
        let answer = unsafe {
            raw::palgwern_placements_around(
                self.grid, &*self.words, &*self.bytes, self.columnstore.as_ptr(), STORE_BYTES, self.rowstore.as_ptr(), STORE_BYTES,
                axis as u32, items.as_ptr(), items.len(), line.into(), &mut hits,
            )
        };
        counted(answer).map(|count| hits.into_iter().take(count))
    }

    /// The edges of the drawn area of a name in an axis, as lines numbered from 1; none where no area has the name. `Word::Name` for what is
    /// no name.
    pub fn drawn_area(&self, axis: Axis, name: &[u8]) -> Result<Option<(u32, u32)>, Refusal> {
        // SAFETY: as in `Panel::read_again`; nothing is written.
        let answer = unsafe {
            raw::palgwern_drawn_area(self.grid, &*self.words, &*self.bytes, axis as u32, name.as_ptr(), name.len())
        };
        refused_or(answer.number, (answer.start != 0).then_some((answer.start, answer.end)))
    }

    /// The edges of the area that names make in an axis: the first lines that bear NAME-start and NAME-end, by an entry or as the edge of
    /// a drawn area. `Word::Name` for what is no name.
    pub fn named_area(&self, axis: Axis, name: &[u8]) -> Result<AreaEdges, Refusal> {
        let line = |number: u32| (number != 0).then_some(number);
        // SAFETY: as in `Panel::read_again`; nothing is written.
        let answer = unsafe {
            raw::palgwern_named_area(
                self.grid, &*self.words, &*self.bytes, self.columnstore.as_ptr(), STORE_BYTES, self.rowstore.as_ptr(), STORE_BYTES,
                axis as u32, name.as_ptr(), name.len(),
            )
        };
        refused_or(answer.number, AreaEdges { start: line(answer.start), end: line(answer.end) })
    }

    /// Where each cell lands, in sheet order: CSS Grid Level 1, 8.3.1 and 8.5, row flow. `Word::Unplaced` with the line of the first cell
    /// in placing order for which no place is free, or that leaves the explicit columns or the 10,000 rows.
    pub fn place_cells(&self, packing: Packing) -> Result<Vec<Land>, Refusal> {
        let mut lands = [0; CELLS];
        // SAFETY: as in `Panel::read_again`; `lands` is a local of its own.
        let answer = unsafe {
            raw::palgwern_place_cells(
                self.grid, &*self.words, &*self.bytes, self.columnstore.as_ptr(), STORE_BYTES, self.rowstore.as_ptr(), STORE_BYTES,
                packing as u32, &mut lands,
            )
        };
        if answer.number != 0 {
            return Err(Refusal::of(answer.number, answer.line));
        }
        Ok(lands[..answer.count as usize].iter().map(|word| Land::of(*word)).collect())
    }

    /// How many lists of line names an axis has: none, or one for each explicit line.
    pub fn lists(&self, axis: Axis) -> u32 {
        // SAFETY: numbers only.
        let answer = unsafe { raw::palgwern_line_count(self.grid, axis as u32) };
        answered(counted(answer)) as u32
    }

    /// The name of a line, from 1, at a place, from 0.
    pub fn name(&self, axis: Axis, line: u32, place: u32) -> Option<&str> {
        // SAFETY: as in `Panel::read_again`; nothing is written.
        let answer = unsafe {
            raw::palgwern_line_name(
                self.grid, &*self.words, self.columnstore.as_ptr(), STORE_BYTES, self.rowstore.as_ptr(), STORE_BYTES, axis as u32,
                line, place,
            )
        };
        answered(accepted(answer.number, 0));
        (answer.length != 0).then(|| self.text(axis, answer.offset as usize, answer.length as usize))
    }

    /// The names of a line, from 1, in entry order.
    pub fn names(&self, axis: Axis, line: u32) -> impl Iterator<Item = &str> + '_ {
        (0..).map_while(move |place| self.name(axis, line, place))
    }

    /// All line names of an axis, each with its line, from 1: line by line, in entry order, a name of a line once.
    pub fn line_names(&self, axis: Axis) -> impl ExactSizeIterator<Item = (u32, &str)> + '_ {
        let mut names = zeroed::<u64, LINE_NAME_RUN>();
        let written = answered(self.write_line_names(axis, &mut names));
        (0..written).map(move |at| ((names[at] & 0xffff) as u32, self.name_at(axis, names[at])))
    }

    /// Writes all line names of an axis, a word each: line, offset times 2^16, length times 2^32; answers how many.
    pub fn write_line_names(&self, axis: Axis, names: &mut [u64; LINE_NAME_RUN]) -> Result<usize, Refusal> {
        // SAFETY: as in `Panel::read_again`; `names` is borrowed mutably, so it is none of the others.
        let answer = unsafe {
            raw::palgwern_line_names(
                self.grid, &*self.words, self.columnstore.as_ptr(), STORE_BYTES, self.rowstore.as_ptr(), STORE_BYTES, axis as u32,
                names,
            )
        };
        counted(answer)
    }

    /// The name that a word of [`Answers::write_line_names`] shows, of the same panel and axis.
    pub fn name_at(&self, axis: Axis, word: u64) -> &str {
        self.text(axis, (word >> 16 & 0xffff) as usize, (word >> 32 & 0xff) as usize)
    }

    /// A part of a store.
    fn text(&self, axis: Axis, offset: usize, length: usize) -> &str {
        let name = &self.store(axis)[offset..][..length];
        debug_assert!(name.is_ascii());
        // SAFETY: a store has zeros at first, and by the contracts of its writers, the sheet's call, the entry's, an edit and a recall, they
        // write bytes of accepted names and nothing else: codes 33 to 126. All of it is ASCII.
        unsafe { std::str::from_utf8_unchecked(name) }
    }

    /// The bytes of the line names of an axis.
    fn store(&self, axis: Axis) -> &[u8; STORE_BYTES] {
        match axis {
            Axis::Columns => &self.columnstore,
            Axis::Rows => &self.rowstore,
        }
    }

    /// How many records an axis has.
    pub fn record_count(&self, axis: Axis) -> usize {
        // SAFETY: numbers only.
        let answer = unsafe { raw::palgwern_record_count(self.grid, axis as u32) };
        answered(counted(answer))
    }

    /// The records of an axis, with the sheet's items.
    pub fn records(&self, axis: Axis) -> impl ExactSizeIterator<Item = Record> {
        let mut records = vec![0; self.record_count(axis) * RECORD_WORDS];
        let written = answered(self.write_records(axis, self.items(axis), 0, &mut records));
        (0..written).map(move |at| Record::of(part(&records, at)))
    }

    /// A byte for each track of an axis, not 0 where the sheet has an item.
    pub fn items(&self, axis: Axis) -> &[u8] {
        let start = match axis {
            Axis::Columns => COLUMN_MARKS_START,
            Axis::Rows => ROW_MARKS_START,
        };
        &self.bytes[start..start + AXIS_MARKS]
    }

    /// Writes records from `first` on, with any items, as many as there are and fit, three words each; answers how many.
    pub fn write_records(&self, axis: Axis, items: &[u8], first: u32, records: &mut [u64]) -> Result<usize, Refusal> {
        // SAFETY: as in `Panel::read_again`; `records` is borrowed mutably, so it is none of the others.
        let answer = unsafe {
            raw::palgwern_records(
                self.grid, &*self.words, axis as u32, items.as_ptr(), items.len(), first, records.as_mut_ptr(), records.len(),
            )
        };
        counted(answer)
    }

    /// The line of an axis nearest to a cursor in pixels, with the sheet's items, as a grid line; the lower of two as near.
    pub fn nearest_line(&self, axis: Axis, cursor: f32) -> Result<i32, Refusal> {
        self.nearest_line_with(axis, self.items(axis), cursor)
    }

    /// The same, with any items.
    pub fn nearest_line_with(&self, axis: Axis, items: &[u8], cursor: f32) -> Result<i32, Refusal> {
        // SAFETY: as in `Panel::read_again`; nothing is written.
        let answer = unsafe {
            raw::palgwern_nearest_line(self.grid, &*self.words, axis as u32, items.as_ptr(), items.len(), cursor.to_bits())
        };
        accepted(answer.number, 0).map(|()| answer.line)
    }

    /// The least resize that matters: of the whole inner sizes 0 to 65,535 the nearest to the size now at which the automatic repeat of
    /// an axis is written out another number of times, the wider of two; none where the count is the same at every size.
    /// [`Word::Value`] for an axis whose template counts as none, or that lacks the repeat, an inner size in whole pixels or a gap that is
    /// a length.
    pub fn least_resize(&self, axis: Axis) -> Result<Option<u32>, Refusal> {
        // SAFETY: as in `Panel::read_again`; nothing is written.
        let answer = unsafe { raw::palgwern_least_resize(self.grid, &*self.words, axis as u32) };
        accepted(answer.number, 0).map(|()| (answer.found != 0).then_some(answer.size))
    }

    /// What answers, as the library has it.
    pub fn grid(&self) -> Grid {
        self.grid
    }
}
