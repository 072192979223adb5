//! Lines drawn: a stroke each, with its numbers from both ends and its names.
use crate::answer::AxisAnswer;
use crate::facts::{self, line_said};
use crate::labels::{cut, width, with_room, TEXT};
use crate::picture::{class, Picture, NUMBERS};
use crate::sheet::letter;
use crate::svg::coordinate;
use palgwern::Axis;

/// The most letters of a line's names that are drawn.
const NAME_LETTERS: usize = 34;
/// Lines that lie nearer to each other share a label.
const NEAR: f64 = 7.0;

/// Lines that share a label, by their places, and where it stands.
struct Group {
    along: f64,
    places: Vec<i32>,
}

/// Draws the stroke of every line.
pub fn draw(picture: &mut Picture, axis: Axis) {
    let answer = picture.answer.axis(axis);
    let across = picture.across(axis);
    for place in picture.drawn(axis).places() {
        let (key, back) = (facts::line_key(axis, answer, place), answer.lines.back(place));
        let kind = if back.is_some() { "line" } else { "line implicit" };
        let back = back.map_or(String::new(), |back| back.to_string());
        let names = answer.names_at(place).join(" ");
        let attributes = [
            class(kind, picture.differs(&key)),
            ("data-axis", letter(axis).to_string()),
            ("data-line", answer.lines.number(place).to_string()),
            ("data-back", back.clone()),
            ("data-names", names),
        ];
        picture.svg.open("g", &attributes);
        let also = if back.is_empty() { String::new() } else { format!(", {back} from the end") };
        picture.svg.words("title", &[], &format!("{key}{also}: {}", line_said(answer, place)));
        let along = picture.drawn(axis).start(place);
        let ((x, y), (to, down)) =
            (picture.point(axis, along, -picture.bands[axis as usize] - 4.0), picture.point(axis, along, across + 4.0));
        let ends = [("x1", x), ("y1", y), ("x2", to), ("y2", down)].map(|(name, value)| (name, coordinate(value)));
        picture.svg.element("line", &ends);
        picture.svg.close();
    }
}

/// Labels by where they stand: those that say something and have room.
fn readable(labels: Vec<(f64, String)>, size: impl Fn(&str) -> f64) -> Vec<(f64, String)> {
    let said: Vec<(f64, String)> = labels.into_iter().filter(|(_, text)| !text.is_empty()).collect();
    let room = with_room(&said.iter().map(|(along, text)| (*along, size(text))).collect::<Vec<_>>());
    said.into_iter().zip(room).filter(|(_, drawn)| *drawn).map(|(label, _)| label).collect()
}

/// The numbers of lines from both ends.
pub fn numbers(picture: &mut Picture, axis: Axis) {
    let (groups, lines) = (groups(picture, axis), picture.answer.axis(axis).lines);
    let (before, after) = (-picture.bands[axis as usize] - 8.0, picture.across(axis) + 8.0);
    let front = groups.iter().map(|group| (group.along, range_words(&group.places, |place| Some(lines.number(place))))).collect();
    let back = groups.iter().map(|group| (group.along, range_words(&group.places, |place| lines.back(place)))).collect();
    for (labels, across) in [(front, before), (back, after)] {
        for (along, text) in readable(labels, |text| if axis == Axis::Columns { width(text) } else { TEXT }) {
            number(picture, axis, along, across, &text);
        }
    }
}

/// The names of lines, those of the columns turned.
pub fn names(picture: &mut Picture, axis: Axis) {
    let answer = picture.answer.axis(axis);
    let joined = |group: &Group| group.places.iter().flat_map(|&place| answer.names_at(place)).cloned().collect::<Vec<_>>().join(" ");
    let labels = groups(picture, axis).iter().map(|group| (group.along, cut(&joined(group), NAME_LETTERS))).collect();
    let (anchor, turned) = if axis == Axis::Columns { ("start", -90) } else { ("end", 0) };
    for (along, text) in readable(labels, |_| TEXT) {
        let point = picture.point(axis, along + 4.0, -picture.bands[axis as usize] - NUMBERS + 8.0);
        picture.label("name", point, anchor, turned, &text);
    }
}

/// A number before or after the grid.
fn number(picture: &mut Picture, axis: Axis, along: f64, across: f64, text: &str) {
    let before = across < 0.0;
    let (point, anchor) = match axis {
        Axis::Columns => (picture.point(axis, along, if before { across } else { across + TEXT - 3.0 }), "middle"),
        Axis::Rows => (picture.point(axis, along + 4.0, across), if before { "end" } else { "start" }),
    };
    picture.label("number", point, anchor, 0, text);
}

/// Lines that lie on one place, or too near for labels of their own.
fn groups(picture: &Picture, axis: Axis) -> Vec<Group> {
    let mut groups: Vec<Group> = vec![];
    for place in picture.drawn(axis).places() {
        let along = picture.drawn(axis).start(place);
        match groups.last_mut().filter(|group| along - group.along < NEAR) {
            Some(group) => group.places.push(place),
            None => groups.push(Group { along, places: vec![place] }),
        }
    }
    groups
}

/// The numbers of a group of lines.
fn range_words(places: &[i32], number: impl Fn(i32) -> Option<i32>) -> String {
    let numbers: Vec<i32> = places.iter().filter_map(|&place| number(place)).collect();
    match numbers[..] {
        [] => String::new(),
        [one] => one.to_string(),
        [first, .., last] => format!("{first}..{last}"),
    }
}

/// How much room the names of an axis's lines need.
pub fn longest_names(answer: &AxisAnswer) -> f64 {
    answer.names.iter().map(|names| width(&cut(&names.join(" "), NAME_LETTERS))).fold(0.0, f64::max)
}
