//! Stand-in: the modules of `types` that are compared.
mod coordinates;
mod grid_track;
mod grid_track_counts;
mod named;

pub(crate) use coordinates::{GridCoordinate, GridLine, OriginZeroLine, MAX_GRID_TRACKS};
pub(super) use grid_track::{GridTrack, GridTrackKind};
pub(crate) use grid_track_counts::TrackCounts;
pub(crate) use named::NamedLineResolver;
