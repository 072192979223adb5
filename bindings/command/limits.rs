//! The limits of a sheet, as docs/SHEET.md lists them.

pub const SHEET_BYTES: usize = 32_768;
pub const NAME_BYTES: usize = 32;
pub const COMPONENTS: usize = 64;
pub const REPEAT_TRACKS: usize = 32;
pub const SPARES: usize = 64;
pub const AREAS: usize = 64;
/// The most words of a row of a picture.
pub const ROW_WORDS: usize = 10_000;
/// Placements and cells together.
pub const PLACEMENTS: usize = 256;
/// The most tracks that a plain span of a cell has.
pub const CELL_SPAN: i64 = 32;
pub const ENTRIES: usize = palgwern::ENTRIES;
/// The most explicit tracks of an axis, and the most of each implicit count.
pub const TRACKS: i64 = 10_000;
pub const EDGE: i64 = 10_001;
pub const REPEATS: i64 = 65_535;
pub const INDEX: i64 = 32_767;
pub const ITEM: i64 = 29_999;
pub const LENGTH: f32 = 65_535.0;
pub const FRACTION: f32 = 10.0;
