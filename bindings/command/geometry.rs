//! Where tracks and lines are drawn: definite sizes to scale, others in equal parts.
use crate::answer::{AxisAnswer, Lines};
use palgwern::{Axis, Record, Size};

/// The width of a collapsed track, which has no size of its own.
const COLLAPSED: f64 = 6.0;
/// The width of a gap that is a percentage of no size.
const NO_GAP: f64 = 4.0;
/// The length that an axis without tracks is drawn at.
const NOTHING: f64 = 40.0;
/// The least and the most that a track of no definite size is drawn at.
const PART: (f64, f64) = (14.0, 96.0);
/// The largest scale.
const LARGEST: f64 = 3.0;

/// A track or a gutter as it is drawn.
#[derive(Clone, Copy)]
enum Extent {
    Definite(f64),
    Part,
    Units(f64),
}

/// An axis as it is drawn.
pub struct Drawn {
    pub lines: Lines,
    /// Start and end of each track.
    pub tracks: Vec<(f64, f64)>,
    /// Whether each track is drawn to scale.
    pub definite: Vec<bool>,
    pub scale: f64,
    pub length: f64,
}

/// The definite size of a track, or of one of its ends.
fn measure(record: &Record, inner: Option<f32>) -> Option<f64> {
    let definite = |size: Size| match size {
        Size::Length(value) => Some(f64::from(value)),
        Size::Percent(part) => inner.map(|inner| f64::from(part) * f64::from(inner)),
        _ => None,
    };
    let maximum = definite(record.maximum)?;
    Some(definite(record.minimum).map_or(maximum, |minimum| maximum.max(minimum)))
}

fn extent(record: &Record, inner: Option<f32>) -> Extent {
    match (record.collapsed, record.gutter, measure(record, inner)) {
        (true, false, _) => Extent::Units(COLLAPSED),
        (true, true, _) => Extent::Units(0.0),
        (false, _, Some(size)) => Extent::Definite(size),
        (false, true, None) => Extent::Units(NO_GAP),
        (false, false, None) => Extent::Part,
    }
}

/// How long an axis of so many tracks is drawn: at least `base`, longer where labels need the room.
fn target(axis: Axis, tracks: usize) -> f64 {
    let (base, room) = match axis {
        Axis::Columns => (560.0, 24.0),
        Axis::Rows => (140.0, 20.0),
    };
    let tracks = tracks as f64;
    f64::max(base, (tracks * room).min(2_000.0)).max((tracks * 14.0).min(6_000.0))
}

/// An axis drawn at a scale of its own, or at one that is given.
pub fn draw(answer: &AxisAnswer, axis: Axis, inner: Option<f32>, scale: Option<f64>) -> Drawn {
    let extents: Vec<Extent> = answer.records.iter().map(|record| extent(record, inner)).collect();
    let definite: f64 = extents.iter().map(|extent| if let Extent::Definite(size) = extent { *size } else { 0.0 }).sum();
    let units: f64 = extents.iter().map(|extent| if let Extent::Units(units) = extent { *units } else { 0.0 }).sum();
    let parts = extents.iter().filter(|extent| matches!(extent, Extent::Part)).count() as f64;
    let target = target(axis, answer.records.len() / 2);
    // What is left of the inner size is shared by the tracks of no definite size.
    let left = inner.map_or(0.0, |inner| f64::from(inner) - definite).max(0.0);
    let shared = if parts > 0.0 { left } else { 0.0 };
    let plain = (target / (answer.records.len() / 2).max(1) as f64).clamp(PART.0, PART.1);
    let room = target - units - if shared > 0.0 { 0.0 } else { parts * plain };
    let own = if definite + shared > 0.0 { (room.max(target / 4.0) / (definite + shared)).min(LARGEST) } else { 1.0 };
    let scale = scale.unwrap_or(own);
    let part = if shared > 0.0 { (shared / parts * scale).max(PART.0) } else { plain };
    laid_out(answer, &extents, scale, part)
}

fn laid_out(answer: &AxisAnswer, extents: &[Extent], scale: f64, part: f64) -> Drawn {
    let (mut tracks, mut definite, mut at) = (vec![], vec![], 0.0);
    for (record, extent) in answer.records.iter().zip(extents) {
        let length = match extent {
            Extent::Definite(size) => size * scale,
            Extent::Part => part,
            Extent::Units(units) => *units,
        };
        if !record.gutter {
            tracks.push((at, at + length));
            definite.push(!matches!(extent, Extent::Part));
        }
        at += length;
    }
    let length = if tracks.is_empty() { NOTHING } else { at };
    Drawn { lines: answer.lines, tracks, definite, scale, length }
}

/// Both axes, at one scale where that keeps the rows readable.
pub fn both(columns: &AxisAnswer, rows: &AxisAnswer, inner: [Option<f32>; 2]) -> [Drawn; 2] {
    let across = draw(columns, Axis::Columns, inner[0], None);
    let (own, same) = (draw(rows, Axis::Rows, inner[1], None), draw(rows, Axis::Rows, inner[1], Some(across.scale)));
    let near = (0.4..=2.5).contains(&(same.length / own.length));
    [across, if near { same } else { own }]
}

impl Drawn {
    /// Where a line lies: at the start of the track after it, the last one at the end of the last track.
    pub fn start(&self, place: i32) -> f64 {
        let at = (place - self.lines.first()).max(0) as usize;
        self.tracks.get(at).map_or_else(|| self.tracks.last().map_or(0.0, |track| track.1), |track| track.0)
    }

    /// Where what ends at a line ends: at the end of the track before it.
    pub fn end(&self, place: i32) -> f64 {
        let at = (place - self.lines.first() - 1).max(0) as usize;
        self.tracks.get(at).or(self.tracks.last()).map_or(0.0, |track| track.1)
    }

    /// The places of all lines.
    pub fn places(&self) -> std::ops::RangeInclusive<i32> {
        self.lines.first()..=self.lines.last()
    }
}
