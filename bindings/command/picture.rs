//! One panel drawn: what is drawn where, and in which order.
use crate::answer::Answer;
use crate::areas;
use crate::bars;
use crate::faults::singular;
use crate::geometry::{self, Drawn};
use crate::labels::{width, TEXT};
use crate::lines;
use crate::sheet::AXES;
use crate::svg::{coordinate, Svg};
use crate::tracks;
use palgwern::Axis;
use std::collections::HashSet;

/// The room for line numbers, and for a heading.
pub const NUMBERS: f64 = 34.0;
const HEADING: f64 = 40.0;
const EDGE: f64 = 16.0;

/// A panel that is drawn, and the SVG of it so far.
pub struct Picture<'a> {
    pub answer: &'a Answer,
    pub drawn: [Drawn; 2],
    pub differs: HashSet<String>,
    pub svg: Svg,
    /// Where the grid begins.
    pub origin: (f64, f64),
    /// How wide the band of track sizes is, before the grid on each axis.
    pub bands: [f64; 2],
}

/// A class, with the mark of what differs.
pub fn class(words: &str, differs: bool) -> (&'static str, String) {
    ("class", if differs { format!("{words} differs") } else { words.to_string() })
}

impl<'a> Picture<'a> {
    pub fn new(answer: &'a Answer, differs: HashSet<String>) -> Picture<'a> {
        let inner = AXES.map(|axis| answer.sheet.axis(axis).inner);
        let drawn = geometry::both(answer.axis(Axis::Columns), answer.axis(Axis::Rows), inner);
        let bands = AXES.map(|axis| tracks::band(answer.axis(axis), &drawn[axis as usize], axis));
        let names = AXES.map(|axis| lines::longest_names(answer.axis(axis)));
        let [top, left] = [0, 1].map(|at| names[at] + NUMBERS + bands[at] + EDGE);
        Picture { answer, drawn, differs, svg: Svg::default(), origin: (left, top + HEADING), bands }
    }

    pub fn drawn(&self, axis: Axis) -> &Drawn {
        &self.drawn[axis as usize]
    }

    /// How long the other axis is drawn.
    pub fn across(&self, axis: Axis) -> f64 {
        self.drawn[1 - axis as usize].length
    }

    /// A point by its place along an axis and across it.
    pub fn point(&self, axis: Axis, along: f64, across: f64) -> (f64, f64) {
        let (x, y) = if axis == Axis::Columns { (along, across) } else { (across, along) };
        (self.origin.0 + x, self.origin.1 + y)
    }

    pub fn differs(&self, key: &str) -> bool {
        self.differs.contains(key)
    }

    /// A rectangle along an axis and across it.
    pub fn rectangle(&mut self, class: &str, axis: Axis, along: (f64, f64), across: (f64, f64)) {
        let ((x, y), (right, bottom)) = (self.point(axis, along.0, across.0), self.point(axis, along.1, across.1));
        let size = [("x", x), ("y", y), ("width", f64::max(right - x, 0.0)), ("height", f64::max(bottom - y, 0.0))];
        let mut attributes = vec![("class", class.to_string())];
        attributes.extend(size.map(|(name, value)| (name, coordinate(value))));
        self.svg.element("rect", &attributes);
    }

    /// A text at a point, turned or not; `anchor` is start, middle or end.
    pub fn label(&mut self, class: &str, (x, y): (f64, f64), anchor: &str, turned: i32, text: &str) {
        let mut attributes =
            vec![("class", class.to_string()), ("x", coordinate(x)), ("y", coordinate(y)), ("text-anchor", anchor.to_string())];
        if turned != 0 {
            attributes.push(("transform", format!("rotate({turned} {} {})", coordinate(x), coordinate(y))));
        }
        self.svg.words("text", &attributes, text);
    }

    /// Draws the panel; answers its width and height.
    pub fn draw(&mut self, heading: &str) -> (f64, f64) {
        let sizes = AXES.map(|axis| scale_words(self.drawn(axis), axis)).join(", ");
        self.label("head", (EDGE, 20.0), "start", 0, heading);
        self.label("soft", (EDGE, 20.0 + TEXT + 1.0), "start", 0, &sizes);
        for axis in AXES {
            tracks::gutters(self, axis);
            tracks::draw(self, axis);
        }
        areas::draw(self);
        for axis in AXES {
            lines::draw(self, axis);
            lines::numbers(self, axis);
            lines::names(self, axis);
        }
        let [columns, rows] = AXES.map(|axis| bars::of(self, axis));
        // Where words of both axes reach past the grid, those of the rows stand further off.
        let both = columns.furthest > self.drawn[0].length + NUMBERS && rows.furthest > self.drawn[1].length + NUMBERS;
        let off = self.drawn[0].length + NUMBERS;
        let off = if both { off.max(columns.furthest + EDGE) } else { off };
        let depth = [bars::draw(self, Axis::Columns, &columns, self.drawn[1].length + NUMBERS), bars::draw(self, Axis::Rows, &rows, off)];
        let room =
            self.point(Axis::Columns, columns.furthest.max(off + depth[1]), rows.furthest.max(self.drawn[1].length + depth[0] + NUMBERS));
        let heading = f64::max(width(heading) * 1.25, width(&sizes)) + EDGE;
        (f64::max(room.0 + EDGE, heading + EDGE), room.1 + EDGE)
    }
}

/// The scale of an axis in words.
fn scale_words(drawn: &Drawn, axis: Axis) -> String {
    let word = singular(axis);
    let definite = drawn.definite.iter().any(|definite| *definite);
    match (drawn.tracks.len(), definite) {
        (0, _) => format!("no {word}s"),
        (_, false) => format!("{word}s in equal parts"),
        _ if drawn.definite.iter().all(|definite| *definite) => format!("{word}s {} : 1", coordinate(drawn.scale)),
        _ => format!("{word}s {} : 1, those of no definite size in equal parts", coordinate(drawn.scale)),
    }
}
