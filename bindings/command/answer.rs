//! What the library answers of a panel, as warnings and pictures ask for it.
use crate::sheet::{AxisSheet, Place, Sheet, AXES};
use palgwern::{Answers, Axis, Display, End, Packing, Panel, Placement, Record, Refusal, Word};

/// The lines of an axis by their places: 0 is the first explicit line.
#[derive(Clone, Copy)]
pub struct Lines {
    pub negative: i32,
    pub explicit: i32,
    pub positive: i32,
}

impl Lines {
    /// The place of a grid line; line 0 has none.
    pub fn place(self, line: i32) -> Option<i32> {
        match line {
            0 => None,
            1.. => Some(line - 1),
            _ => Some(line + self.explicit + 1),
        }
    }

    /// The grid line at a place, counted from the start, or from the end where the place lies before it.
    pub fn number(self, place: i32) -> i32 {
        if place >= 0 {
            place + 1
        } else {
            place - self.explicit - 1
        }
    }

    /// The number of an explicit line counted from the end.
    pub fn back(self, place: i32) -> Option<i32> {
        (0..=self.explicit).contains(&place).then(|| place - self.explicit - 1)
    }

    pub fn first(self) -> i32 {
        -self.negative
    }

    pub fn last(self) -> i32 {
        self.explicit + self.positive
    }

    /// Whether a place lies on the grid, implicit tracks included.
    pub fn holds(self, place: i32) -> bool {
        (self.first()..=self.last()).contains(&place)
    }
}

/// The answers about an axis.
pub struct AxisAnswer {
    pub lines: Lines,
    pub records: Vec<Record>,
    /// The names of the explicit lines; empty where the axis has none.
    pub names: Vec<Vec<String>>,
    /// Whether something is written as a template and counts as none.
    pub none: bool,
}

/// A panel: its sheet by parts, and the library's answers.
pub struct Answer {
    pub sheet: Sheet,
    pub axes: [AxisAnswer; 2],
    pub placements: Vec<Placement>,
    /// The refusal of the first cell that has no place.
    pub unplaced: Option<Refusal>,
}

impl Answer {
    /// The answers to a sheet, or its refusal.
    pub fn read(bytes: &[u8]) -> Result<Answer, Refusal> {
        Ok(Answer::of(&*Panel::read(bytes)?, Sheet::read(bytes)))
    }

    /// The answers to a sheet for display, areas that share a cell included, with the refusal that these get; or another refusal.
    pub fn display(bytes: &[u8]) -> Result<(Answer, Option<Refusal>), Refusal> {
        match Answer::read(bytes) {
            Err(refusal) if refusal.word == Word::Overlap => Ok((Answer::of(&*Display::read(bytes)?, Sheet::read(bytes)), Some(refusal))),
            answer => Ok((answer?, None)),
        }
    }

    fn of(answers: &Answers, sheet: Sheet) -> Answer {
        let axes = AXES.map(|axis| axis_answer(answers, axis, &sheet.axes[axis as usize]));
        let placements = answers.resolved().filter(|placement| !placement.cell).collect();
        Answer { sheet, axes, placements, unplaced: answers.place_cells(Packing::Sparse).err() }
    }

    pub fn axis(&self, axis: Axis) -> &AxisAnswer {
        &self.axes[axis as usize]
    }

    /// Placements as they are written and as they are resolved.
    pub fn places(&self) -> impl Iterator<Item = (&Place, &Placement)> {
        self.sheet.places.iter().zip(&self.placements)
    }
}

impl AxisAnswer {
    /// The names of the line at a place.
    pub fn names_at(&self, place: i32) -> &[String] {
        usize::try_from(place).ok().and_then(|at| self.names.get(at)).map_or(&[], |names| names)
    }
}

fn axis_answer(answers: &Answers, axis: Axis, written: &AxisSheet) -> AxisAnswer {
    let grid = match axis {
        Axis::Columns => answers.grid().columns,
        Axis::Rows => answers.grid().rows,
    };
    let size = answers.size(axis);
    let lines = Lines { negative: grid.implicit.negative as i32, explicit: size.explicit as i32, positive: grid.implicit.positive as i32 };
    let mut names = vec![vec![]; answers.lists(axis) as usize];
    answers.line_names(axis).for_each(|(line, name)| names[line as usize - 1].push(name.to_string()));
    let none = !written.template.is_empty() && grid.template.components == 0;
    AxisAnswer { lines, records: answers.records(axis).collect(), names, none }
}

/// The places between which a placement lies as CSS settles it, ends in order; none where it is placed automatically or on line 0.
pub fn between(placement: &Placement, lines: Lines) -> Option<(i32, i32)> {
    let span = |span: u16| i32::from(span.max(1));
    match (placement.start, placement.end) {
        (End::Line(start), End::Line(end)) => {
            let (start, end) = (lines.place(start.into())?, lines.place(end.into())?);
            Some(if start == end { (start, start + 1) } else { (start.min(end), start.max(end)) })
        }
        (End::Line(start), End::Auto) => lines.place(start.into()).map(|start| (start, start + 1)),
        (End::Line(start), End::Span(by)) => lines.place(start.into()).map(|start| (start, start + span(by))),
        (End::Auto, End::Line(end)) => lines.place(end.into()).map(|end| (end - 1, end)),
        (End::Span(by), End::Line(end)) => lines.place(end.into()).map(|end| (end - span(by), end)),
        _ => None,
    }
}
