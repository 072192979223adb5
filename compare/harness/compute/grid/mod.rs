//! Stand-in: the modules that are compared, and the drivers that call them.
pub(crate) mod engine;
mod explicit_grid;
pub(crate) mod panel;
mod types;

pub(crate) use types::{GridCoordinate, GridLine, OriginZeroLine, MAX_GRID_TRACKS};
