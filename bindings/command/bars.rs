//! Placements as bars beside the grid, each with its line of the sheet.
use crate::answer::between;
use crate::css_write::shown;
use crate::facts::{self, end_said, placement_said};
use crate::faults::singular;
use crate::labels::{lanes, width};
use crate::picture::Picture;
use crate::sheet::letter;
use crate::svg::coordinate;
use palgwern::{Axis, End};

/// The width of a lane, and how far a bar reaches that goes off the grid.
const LANE: f64 = 18.0;
const OFF: f64 = 22.0;

/// A placement as a bar.
struct Bar {
    /// Its place among the placements.
    at: usize,
    start: f64,
    end: f64,
    off: bool,
    label: String,
}

/// The bars of an axis, their lanes, and how far they reach along the axis.
pub struct Bars {
    bars: Vec<Bar>,
    lanes: Vec<usize>,
    pub furthest: f64,
}

/// The bars of an axis's placements; those that are placed automatically are drawn at the start, as a label alone.
pub fn of(picture: &Picture, axis: Axis) -> Bars {
    let bars: Vec<Bar> = (0..picture.answer.placements.len())
        .filter(|&at| picture.answer.placements[at].axis == axis)
        .map(|at| bar(picture, axis, at))
        .collect();
    let lanes = lanes(&bars.iter().map(reach).collect::<Vec<_>>());
    let furthest = bars.iter().map(|bar| reach(bar).1).fold(0.0, f64::max);
    Bars { bars, lanes, furthest }
}

/// From where to where a bar and its words reach.
fn reach(bar: &Bar) -> (f64, f64) {
    let words = width(&bar.label) + 6.0;
    match (fits(bar), stands_before(bar)) {
        (true, _) => (bar.start, bar.end),
        (_, true) => (bar.start - words, bar.end),
        _ => (bar.start, bar.end + words),
    }
}

/// Whether the words stand before the bar: where it lies off the end, and they have room there.
fn stands_before(bar: &Bar) -> bool {
    bar.off && bar.start > width(&bar.label) + 6.0
}

fn fits(bar: &Bar) -> bool {
    width(&bar.label) + 8.0 <= bar.end - bar.start
}

fn bar(picture: &Picture, axis: Axis, at: usize) -> Bar {
    let (place, placement) = (&picture.answer.sheet.places[at], &picture.answer.placements[at]);
    let (drawn, lines) = (picture.drawn(axis), picture.answer.axis(axis).lines);
    let written = format!("{}: {}", place.line, shown(place));
    let Some((from, to)) = between(placement, lines) else {
        let zero = placement.start == End::Line(0) || placement.end == End::Line(0);
        let why = if zero { "line 0 is none" } else { "placed automatically" };
        return Bar { at, start: 0.0, end: 0.0, off: zero, label: format!("{written} ({why})") };
    };
    let off = !lines.holds(from) || !lines.holds(to);
    let end = drawn.length;
    let start_of = |place: i32| {
        if place > lines.last() {
            end + 4.0
        } else if place < lines.first() {
            -OFF
        } else {
            drawn.start(place)
        }
    };
    let end_of = |place: i32| {
        if place < lines.first() {
            -4.0
        } else if place > lines.last() {
            end + OFF
        } else {
            drawn.end(place)
        }
    };
    let (start, end) = (start_of(from), end_of(to).max(start_of(from) + 4.0));
    let goes = if off { format!(" ({}, off the grid)", placement_said(placement)) } else { String::new() };
    Bar { at, start, end, off, label: format!("{written}{goes}") }
}

/// Draws the bars from a distance beside the grid on; answers how deep they are.
pub fn draw(picture: &mut Picture, axis: Axis, bars: &Bars, from: f64) -> f64 {
    for (bar, lane) in bars.bars.iter().zip(&bars.lanes) {
        let across = from + *lane as f64 * LANE;
        let (place, placement) = (&picture.answer.sheet.places[bar.at], &picture.answer.placements[bar.at]);
        let differs = picture.differs(&facts::place_key(bar.at));
        let class = format!("place{}{}", if bar.off { " off" } else { "" }, if differs { " differs" } else { "" });
        let attributes = [
            ("class", class),
            ("data-line", place.line.to_string()),
            ("data-axis", letter(axis).to_string()),
            ("data-start", end_said(placement.start)),
            ("data-end", end_said(placement.end)),
            ("data-written", shown(place)),
        ];
        let said = format!("line {}: {} {}: {}", place.line, singular(axis), shown(place), placement_said(placement));
        picture.svg.open("g", &attributes);
        picture.svg.words("title", &[], &said);
        if bar.end > bar.start {
            picture.rectangle("", axis, (bar.start, bar.end), (across, across + LANE - 4.0));
        }
        label(picture, axis, bar, across);
        picture.svg.close();
    }
    bars.lanes.iter().max().map_or(0.0, |lane| (lane + 1) as f64 * LANE)
}

/// The words of a bar, in it or after it; along the rows they are turned.
fn label(picture: &mut Picture, axis: Axis, bar: &Bar, across: f64) {
    let (along, anchor) = match (fits(bar), stands_before(bar)) {
        (true, _) => (bar.start + 4.0, "start"),
        (_, true) => (bar.start - 4.0, "end"),
        _ => (bar.end + 4.0, "start"),
    };
    let turned = axis == Axis::Rows;
    let (x, y) = picture.point(axis, along, if turned { across + 3.0 } else { across + LANE - 7.5 });
    let mut attributes = vec![("x", coordinate(x)), ("y", coordinate(y)), ("text-anchor", anchor.to_string())];
    if turned {
        attributes.push(("transform", format!("rotate(90 {} {})", coordinate(x), coordinate(y))));
    }
    picture.svg.words("text", &attributes, &bar.label);
}
