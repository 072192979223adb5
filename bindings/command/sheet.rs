//! A sheet by its parts, each with the line that it stands at.
use palgwern::{Axis, Size};

pub const AXES: [Axis; 2] = [Axis::Columns, Axis::Rows];

#[derive(Clone, Copy, PartialEq, Debug)]
pub struct Track {
    pub minimum: Size,
    pub maximum: Size,
}

#[derive(Clone, Copy, PartialEq, Eq, Debug)]
pub enum Times {
    Count(u32),
    Fill,
    Fit,
}

/// A part of a template: a line name, a single track, or a repeat with its own names and tracks.
#[derive(Clone, PartialEq, Debug)]
pub enum Part {
    Name(String),
    Track(Track),
    Repeat(Times, Vec<(usize, Part)>),
}

/// The lines of one axis; `minimum` is the rule `min`.
#[derive(Clone, Debug)]
pub struct AxisSheet {
    pub inner: Option<f32>,
    pub minimum: bool,
    pub gap: Size,
    pub template: Vec<(usize, Part)>,
    pub spares: Vec<Track>,
    pub extra: (u32, u32),
    pub items: Vec<(usize, u32)>,
}

/// A drawn area by the lines of its edges.
#[derive(Clone, Debug)]
pub struct Area {
    pub line: usize,
    pub name: String,
    pub rows: (u32, u32),
    pub columns: (u32, u32),
}

/// One end of a placement as it is written.
#[derive(Clone, PartialEq, Debug)]
pub enum Written {
    Auto,
    Line(i32),
    Named(String, i32),
    Span(u32),
    NamedSpan(String, u32),
}

#[derive(Clone, Debug)]
pub struct Place {
    pub line: usize,
    pub axis: Axis,
    pub start: Written,
    pub end: Written,
}

/// A row of a picture of areas, by its words.
#[derive(Clone, Debug)]
pub struct Row {
    pub line: usize,
    pub words: Vec<String>,
}

/// A sheet; the areas of a picture stand beside it.
#[derive(Clone, Debug)]
pub struct Sheet {
    pub axes: [AxisSheet; 2],
    pub picture: Vec<Row>,
    pub areas: Vec<Area>,
    pub places: Vec<Place>,
    /// The lines of its cells.
    pub cells: Vec<usize>,
}

impl AxisSheet {
    pub fn empty() -> AxisSheet {
        let gap = Size::Length(0.0);
        AxisSheet { inner: None, minimum: false, gap, template: vec![], spares: vec![], extra: (0, 0), items: vec![] }
    }
}

impl Area {
    /// Its start and end lines on an axis.
    pub fn edges(&self, axis: Axis) -> (u32, u32) {
        match axis {
            Axis::Columns => self.columns,
            Axis::Rows => self.rows,
        }
    }

    /// Whether two areas share a cell.
    pub fn meets(&self, other: &Area) -> bool {
        AXES.iter().all(|&axis| self.edges(axis).0 < other.edges(axis).1 && other.edges(axis).0 < self.edges(axis).1)
    }
}

impl Row {
    /// The names that stand in it, each with its column from 1.
    pub fn names(&self) -> impl Iterator<Item = (u32, &str)> {
        (1..).zip(self.words.iter().map(String::as_str)).filter(|(_, word)| !word.bytes().all(|byte| byte == b'.'))
    }
}

/// The areas of a picture in the order of their first cells: each around all cells of its name.
pub fn areas_of(picture: &[Row]) -> Vec<Area> {
    let mut areas: Vec<Area> = vec![];
    for (row, (column, name), line) in (1..).zip(picture).flat_map(|(row, words)| words.names().map(move |cell| (row, cell, words.line))) {
        match areas.iter_mut().find(|area| area.name == name) {
            Some(area) => {
                area.rows.1 = row + 1;
                area.columns = (area.columns.0.min(column), area.columns.1.max(column + 1));
            }
            None => areas.push(Area { line, name: name.to_string(), rows: (row, row + 1), columns: (column, column + 1) }),
        }
    }
    areas
}

impl Written {
    /// The name that it looks for.
    pub fn name(&self) -> Option<&str> {
        match self {
            Written::Named(name, _) | Written::NamedSpan(name, _) => Some(name),
            _ => None,
        }
    }
}

impl Sheet {
    pub fn empty() -> Sheet {
        Sheet { axes: [AxisSheet::empty(), AxisSheet::empty()], picture: vec![], areas: vec![], places: vec![], cells: vec![] }
    }

    pub fn axis(&self, axis: Axis) -> &AxisSheet {
        &self.axes[axis as usize]
    }
}

/// The letter of an axis in a sheet.
pub fn letter(axis: Axis) -> &'static str {
    match axis {
        Axis::Columns => "c",
        Axis::Rows => "r",
    }
}
