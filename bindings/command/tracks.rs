//! Tracks and gutters drawn: a band with sizes before the grid, hatching and shades in it.
use crate::answer::AxisAnswer;
use crate::facts::{self, track_said};
use crate::geometry::Drawn;
use crate::labels::{cut, width, TEXT};
use crate::picture::{class, Picture};
use crate::sheet::letter;
use crate::values::{css_track, fields};
use palgwern::{Axis, Record};

/// The most letters of a track's size that are drawn.
const SIZE_LETTERS: usize = 22;

fn tracks(answer: &AxisAnswer) -> impl Iterator<Item = (usize, &Record)> {
    answer.records.iter().filter(|record| !record.gutter).enumerate()
}

/// Shades the gutters.
pub fn gutters(picture: &mut Picture, axis: Axis) {
    let across = (0.0, picture.across(axis));
    let ends: Vec<(f64, f64)> = picture.drawn(axis).tracks.windows(2).map(|pair| (pair[0].1, pair[1].0)).collect();
    for (start, end) in ends.into_iter().filter(|(start, end)| end > start) {
        picture.rectangle("gutter", axis, (start, end), across);
    }
}

/// Draws every track.
pub fn draw(picture: &mut Picture, axis: Axis) {
    let answer = picture.answer;
    for (at, record) in tracks(answer.axis(axis)) {
        let key = facts::track_key(axis, answer.axis(axis), at);
        let (letter_of, part) = (facts::source(record.source).0, if picture.drawn(axis).definite[at] { "" } else { " part" });
        let attributes = [
            class(&format!("track {letter_of}{part}"), picture.differs(&key)),
            ("data-axis", letter(axis).to_string()),
            ("data-index", at.to_string()),
            ("data-source", letter_of.to_string()),
            ("data-collapsed", if record.collapsed { "y" } else { "n" }.to_string()),
            ("data-size", format!("{} {}", fields(record.minimum), fields(record.maximum)).replace('\t', " ")),
        ];
        picture.svg.open("g", &attributes);
        picture.svg.words("title", &[], &format!("{key}: {}", track_said(record)));
        track(picture, axis, at, record);
        picture.svg.close();
    }
}

/// The band of a track with its size, and its hatching where it collapsed.
fn track(picture: &mut Picture, axis: Axis, at: usize, record: &Record) {
    let (start, end) = picture.drawn(axis).tracks[at];
    let (band, across) = (picture.bands[axis as usize], picture.across(axis));
    picture.rectangle(if record.collapsed { "band shut" } else { "band" }, axis, (start, end), (-band, 0.0));
    if record.collapsed {
        picture.rectangle("shut", axis, (start, end), (0.0, across));
        return;
    }
    let (text, middle) = (size_words(record), (start + end) / 2.0);
    if axis == Axis::Rows && end - start >= TEXT - 2.0 {
        let point = picture.point(axis, middle + 4.0, -4.0);
        picture.label("size", point, "end", 0, &text);
    } else if axis == Axis::Columns && width(&text) + 4.0 <= end - start {
        let point = picture.point(axis, middle, -5.0);
        picture.label("size", point, "middle", 0, &text);
    } else if axis == Axis::Columns && end - start >= TEXT - 2.0 {
        let point = picture.point(axis, middle + 4.0, -4.0);
        picture.label("size", point, "start", -90, &text);
    }
}

/// A track size in few letters.
fn size_words(record: &Record) -> String {
    cut(&css_track(record.minimum, record.maximum), SIZE_LETTERS)
}

/// How wide the band of an axis has to be for the sizes of its tracks.
pub fn band(answer: &AxisAnswer, drawn: &Drawn, axis: Axis) -> f64 {
    let open = || tracks(answer).filter(|(_, record)| !record.collapsed);
    let fits = |(at, record): &(usize, &Record)| width(&size_words(record)) + 4.0 <= drawn.tracks[*at].1 - drawn.tracks[*at].0;
    let longest = open().filter(|one| axis == Axis::Rows || !fits(one)).map(|(_, record)| width(&size_words(record))).fold(0.0, f64::max);
    f64::max(18.0, longest + 8.0)
}
