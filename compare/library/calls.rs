//! The exported calls on lent buffers, each with the fault that is planted in it, mostly none.
use crate::lent::*;
use crate::palgwern::{raw, Grid, State};
use crate::planted;

/// The numbers that calls take besides the panel.
#[derive(Clone, Copy, Debug)]
pub struct Numbers {
    pub axis: u32,
    /// The line of an entry or of a name.
    pub line: u32,
    /// The place of a name, the placement, or the first record.
    pub place: u32,
}

pub fn read_sheet(lent: &mut Lent) -> raw::SheetAnswer {
    let held = lent.words[PANEL].content()[0];
    let (sheet, length) = (lent.bytes[TEXT].content().as_ptr(), lent.bytes[TEXT].content().len());
    let [bytes, columnstore, rowstore, ..] = &mut lent.bytes;
    let (columnstore, rowstore) = (columnstore.content_mut(), rowstore.content_mut());
    // SAFETY: buffers of their own, initialized, each of the length that `palgwern.h` states.
    let mut answer = unsafe {
        raw::palgwern_read_sheet(
            sheet, length, lent.words[PANEL].array_mut(), bytes.array_mut(), columnstore.as_mut_ptr(), columnstore.len(),
            rowstore.as_mut_ptr(), rowstore.len(),
        )
    };
    planted::in_sheet(lent, held, &mut answer);
    answer
}

pub fn display_sheet(lent: &mut Lent) -> raw::DisplayAnswer {
    let (sheet, length) = (lent.bytes[TEXT].content().as_ptr(), lent.bytes[TEXT].content().len());
    let [bytes, columnstore, rowstore, ..] = &mut lent.bytes;
    let (columnstore, rowstore) = (columnstore.content_mut(), rowstore.content_mut());
    // SAFETY: as above.
    let mut answer = unsafe {
        raw::palgwern_display_sheet(
            sheet, length, lent.words[PANEL].array_mut(), bytes.array_mut(), columnstore.as_mut_ptr(), columnstore.len(),
            rowstore.as_mut_ptr(), rowstore.len(),
        )
    };
    planted::in_display(lent, &mut answer);
    answer
}

/// The text is the name.
pub fn enter_name(lent: &mut Lent, panel: State, numbers: Numbers) -> raw::PanelAnswer {
    let (name, length) = (lent.bytes[TEXT].content().as_ptr(), lent.bytes[TEXT].content().len());
    let [_, columnstore, rowstore, ..] = &mut lent.bytes;
    let (columnstore, rowstore) = (columnstore.content_mut(), rowstore.content_mut());
    // SAFETY: as above.
    let mut answer = unsafe {
        raw::palgwern_enter_name(
            panel, lent.words[PANEL].array_mut(), columnstore.as_mut_ptr(), columnstore.len(), rowstore.as_mut_ptr(), rowstore.len(),
            numbers.axis, numbers.line, name, length,
        )
    };
    planted::in_entry(lent, numbers, &mut answer);
    answer
}

pub fn explicit_size(grid: Grid, numbers: Numbers) -> raw::SizeAnswer {
    // SAFETY: numbers only.
    let mut answer = unsafe { raw::palgwern_explicit_size(grid, numbers.axis) };
    planted::in_size(&mut answer);
    answer
}

pub fn line_count(grid: Grid, numbers: Numbers) -> raw::CountAnswer {
    // SAFETY: numbers only.
    unsafe { raw::palgwern_line_count(grid, numbers.axis) }
}

pub fn record_count(grid: Grid, numbers: Numbers) -> raw::CountAnswer {
    // SAFETY: numbers only.
    let mut answer = unsafe { raw::palgwern_record_count(grid, numbers.axis) };
    planted::in_record_count(&mut answer);
    answer
}

pub fn least_resize(lent: &Lent, grid: Grid, numbers: Numbers) -> raw::ResizeAnswer {
    // SAFETY: as in `read_sheet`; nothing is written.
    let mut answer = unsafe { raw::palgwern_least_resize(grid, lent.words[PANEL].array(), numbers.axis) };
    planted::in_resize(&mut answer);
    answer
}

pub fn resolve_placement(lent: &mut Lent, grid: Grid, numbers: Numbers) -> raw::PlacementAnswer {
    let (columnstore, rowstore) = (lent.bytes[COLUMN_STORE].content(), lent.bytes[ROW_STORE].content());
    // SAFETY: as in `read_sheet`; nothing is written.
    let mut answer = unsafe {
        raw::palgwern_resolve_placement(
            grid, lent.words[PANEL].array(), lent.bytes[PANEL].array(), columnstore.as_ptr(), columnstore.len(), rowstore.as_ptr(),
            rowstore.len(), numbers.place,
        )
    };
    planted::in_placement(lent, &mut answer);
    answer
}

pub fn line_name(lent: &Lent, grid: Grid, numbers: Numbers) -> raw::NameAnswer {
    let (columnstore, rowstore) = (lent.bytes[COLUMN_STORE].content(), lent.bytes[ROW_STORE].content());
    // SAFETY: as in `read_sheet`; nothing is written.
    let mut answer = unsafe {
        raw::palgwern_line_name(
            grid, lent.words[PANEL].array(), columnstore.as_ptr(), columnstore.len(), rowstore.as_ptr(), rowstore.len(),
            numbers.axis, numbers.line, numbers.place,
        )
    };
    planted::in_name(lent, numbers, &mut answer);
    answer
}

pub fn records(lent: &mut Lent, grid: Grid, numbers: Numbers) -> raw::CountAnswer {
    let [words, records, ..] = &mut lent.words;
    let (items, records) = (lent.bytes[ITEMS].content(), records.content_mut());
    // SAFETY: as in `read_sheet`.
    let mut answer = unsafe {
        raw::palgwern_records(
            grid, words.array(), numbers.axis, items.as_ptr(), items.len(), numbers.place, records.as_mut_ptr(), records.len(),
        )
    };
    planted::in_records(lent, &mut answer);
    answer
}
