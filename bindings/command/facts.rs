//! What a picture shows, in words: tooltips say it, and two panels are compared by it.
use crate::answer::{Answer, AxisAnswer};
use crate::faults::singular;
use crate::sheet::AXES;
use crate::values::css_track;
use palgwern::{Axis, End, Placement, Record, Source};
use std::collections::HashMap;

/// Something that is shown: what it is called, and what it is.
pub struct Fact {
    pub key: String,
    pub said: String,
}

/// What differs between two panels: what it is called, before and after.
pub struct Difference {
    pub key: String,
    pub before: String,
    pub after: String,
}

pub fn line_key(axis: Axis, answer: &AxisAnswer, place: i32) -> String {
    format!("{} line {}", singular(axis), answer.lines.number(place))
}

pub fn track_key(axis: Axis, answer: &AxisAnswer, at: usize) -> String {
    format!("{} after line {}", singular(axis), answer.lines.number(at as i32 + answer.lines.first()))
}

pub fn area_key(name: &str) -> String {
    format!("area {name}")
}

pub fn place_key(at: usize) -> String {
    format!("placement {}", at + 1)
}

/// Where a track comes from.
pub fn source(source: Source) -> (&'static str, &'static str) {
    match source {
        Source::Negative => ("n", "implicit, before the grid"),
        Source::Template => ("t", "template"),
        Source::Automatic => ("a", "automatic repeat"),
        Source::Area => ("g", "made by an area alone"),
        Source::Positive => ("p", "implicit, after the grid"),
        Source::Gutter => ("-", "gutter"),
    }
}

pub fn track_said(record: &Record) -> String {
    let size = if record.collapsed { "collapsed".to_string() } else { css_track(record.minimum, record.maximum) };
    format!("{size}, {}", source(record.source).1)
}

pub fn line_said(answer: &AxisAnswer, place: i32) -> String {
    let names = answer.names_at(place);
    if names.is_empty() {
        "no name".to_string()
    } else {
        names.join(" ")
    }
}

/// An end as the panel program prints it.
pub fn end_said(end: End) -> String {
    match end {
        End::Auto => "auto".to_string(),
        End::Line(line) => format!("line {line}"),
        End::Span(span) => format!("span {span}"),
    }
}

pub fn placement_said(placement: &Placement) -> String {
    format!("{} / {}", end_said(placement.start), end_said(placement.end))
}

/// All that a picture shows.
pub fn of(answer: &Answer) -> Vec<Fact> {
    let mut facts = vec![];
    for axis in AXES {
        let one = answer.axis(axis);
        let lines = one.lines;
        facts.extend((lines.first()..=lines.last()).map(|place| Fact { key: line_key(axis, one, place), said: line_said(one, place) }));
        let tracks = one.records.iter().filter(|record| !record.gutter).enumerate();
        facts.extend(tracks.map(|(at, record)| Fact { key: track_key(axis, one, at), said: track_said(record) }));
    }
    facts.extend(answer.sheet.areas.iter().map(|area| {
        let said = format!("rows {} to {}, columns {} to {}", area.rows.0, area.rows.1, area.columns.0, area.columns.1);
        Fact { key: area_key(&area.name), said }
    }));
    let placements = answer.placements.iter().enumerate();
    facts.extend(
        placements.map(|(at, placement)| Fact {
            key: place_key(at),
            said: format!("{} {}", singular(placement.axis), placement_said(placement)),
        }),
    );
    facts
}

/// What differs, in the order of the first panel and then of what the second has besides.
pub fn differences(before: &[Fact], after: &[Fact]) -> Vec<Difference> {
    let by_key = |facts: &'_ [Fact]| facts.iter().map(|fact| (fact.key.clone(), fact.said.clone())).collect::<HashMap<_, _>>();
    let (first, second) = (by_key(before), by_key(after));
    let missing = || "not there".to_string();
    let changed = before.iter().filter(|fact| second.get(&fact.key) != Some(&fact.said));
    let added = after.iter().filter(|fact| !first.contains_key(&fact.key));
    let changed = changed.map(|fact| Difference {
        key: fact.key.clone(),
        before: fact.said.clone(),
        after: second.get(&fact.key).cloned().unwrap_or_else(missing),
    });
    changed.chain(added.map(|fact| Difference { key: fact.key.clone(), before: missing(), after: fact.said.clone() })).collect()
}
