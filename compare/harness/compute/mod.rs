//! Stand-in: the grid part only.
pub(crate) mod grid;
