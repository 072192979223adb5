//! What an accepted panel probably does not mean, told from its answers.
use crate::answer::{Answer, Lines};
use crate::faults::{plural, singular};
use crate::forms::nearest;
use crate::limits;
use crate::sheet::{Place, Sheet, Times, Written, AXES};
use crate::template;
use crate::text::{counted, grouped};
use palgwern::{Axis, End, Placement, Source};

/// A warning: the line that it is about, its word, and what it says.
pub struct Warning {
    pub line: usize,
    pub word: &'static str,
    pub said: String,
}

impl Warning {
    /// The warning as it is printed.
    pub fn text(&self) -> String {
        format!("line {}: warning ({}): {}", self.line, self.word, self.said)
    }
}

/// All warnings of a panel, by their lines.
pub fn of(answer: &Answer) -> Vec<Warning> {
    let mut found: Vec<Warning> =
        AXES.iter().flat_map(|&axis| template_none(answer, axis).into_iter().chain(fit(answer, axis)).chain(items(answer, axis))).collect();
    found.extend(unused_areas(&answer.sheet));
    for (place, placement) in answer.places() {
        found.extend(Ends { answer, place, placement, lines: answer.axis(place.axis).lines }.warnings());
    }
    found.sort_by_key(|warning| warning.line);
    found
}

/// A template that counts as none, and CSS's reason.
fn template_none(answer: &Answer, axis: Axis) -> Option<Warning> {
    let parts = &answer.sheet.axis(axis).template;
    let first = parts.first().map_or(0, |(line, _)| *line);
    let none = format!("the template of the {} counts as none", plural(axis));
    let (line, why) = template::why_none(parts).map_or((first, String::new()), |(line, why)| (line, format!(": {why}")));
    answer.axis(axis).none.then(|| Warning { line, word: "template", said: format!("{none}{why}") })
}

/// A `fit` of which every track collapses.
fn fit(answer: &Answer, axis: Axis) -> Option<Warning> {
    let (line, times) = *template::automatic(&answer.sheet.axis(axis).template).first()?;
    let written: Vec<_> = answer.axis(axis).records.iter().filter(|record| record.source == Source::Automatic).collect();
    let shut = times == Times::Fit && !written.is_empty() && written.iter().all(|record| record.collapsed);
    let said = || format!("no item line marks one of the {} of this fit, so all of them collapse", counted(written.len(), singular(axis)));
    shut.then(|| Warning { line, word: "fit", said: said() })
}

/// Items that no track is there for.
fn items(answer: &Answer, axis: Axis) -> Vec<Warning> {
    let tracks = answer.axis(axis).records.len() / 2;
    let past = answer.sheet.axis(axis).items.iter().filter(|(_, index)| *index as usize >= tracks);
    let of = |(line, index): &(usize, u32)| {
        let said =
            format!("there is no track {index} among the {}, counted from 0, so the item has no effect", counted(tracks, singular(axis)));
        Warning { line: *line, word: "item", said }
    };
    past.map(of).collect()
}

/// Areas that no placement names.
fn unused_areas(sheet: &Sheet) -> Vec<Warning> {
    let used = |name: &str| {
        let edges = [name.to_string(), format!("{name}-start"), format!("{name}-end")];
        sheet
            .places
            .iter()
            .flat_map(|place| [&place.start, &place.end])
            .filter_map(Written::name)
            .any(|one| edges.iter().any(|edge| edge == one))
    };
    let unused = sheet.areas.iter().filter(|area| !used(&area.name));
    unused.map(|area| Warning { line: area.line, word: "area", said: format!("no placement uses the area '{}'", area.name) }).collect()
}

/// A placement with what is needed to judge its ends.
struct Ends<'a> {
    answer: &'a Answer,
    place: &'a Place,
    placement: &'a Placement,
    lines: Lines,
}

impl Ends<'_> {
    fn warnings(&self) -> Vec<Warning> {
        let sides = [
            ("start", &self.place.start, self.placement.start, self.placement.startheld),
            ("end", &self.place.end, self.placement.end, self.placement.endheld),
        ];
        let mut found = vec![];
        for (side, written, resolved, held) in sides {
            let zero = (resolved == End::Line(0)).then(|| format!("the {side} is line 0, which CSS does not have"));
            let name = self.missing_name(side, written, resolved);
            let past = if name.is_none() { self.past(side, resolved) } else { None };
            let held = held.then(|| {
                format!(
                    "the {side} was held: it, or the line beside it, lies more than {} lines from the first explicit line",
                    grouped(limits::TRACKS)
                )
            });
            let words = [("zero", zero), ("name", name), ("past", past), ("held", held)];
            found.extend(words.into_iter().filter_map(|(word, said)| Some(Warning { line: self.place.line, word, said: said? })));
        }
        // Ends that go astray by their names are out of order by that alone.
        let astray = found.iter().any(|warning: &Warning| warning.word == "name");
        found.extend(self.order().filter(|_| !astray).map(|said| Warning { line: self.place.line, word: "order", said }));
        found
    }

    /// A name that no line bears, and where the end goes instead.
    fn missing_name(&self, side: &str, written: &Written, resolved: End) -> Option<String> {
        let name = written.name()?;
        let edge = format!("{name}-{side}");
        if self.bears(name) || matches!(written, Written::Named(_, 0)) && self.bears(&edge) {
            return None;
        }
        let known = self.known();
        let near = nearest(name, known.iter().map(String::as_str)).map_or(String::new(), |one| format!("; '{one}' is meant?"));
        let goes = match resolved {
            End::Line(line) => format!("the {side} goes to line {line}{}", self.where_is(line.into())),
            End::Span(_) => format!("the {side} becomes span 1"),
            End::Auto => format!("the {side} becomes auto"),
        };
        let gone = if self.written(name) { ", since the template counts as none" } else { "" };
        Some(format!("no {} line bears the name '{name}'{gone}, so {goes}{near}", singular(self.place.axis)))
    }

    /// Whether a line bears a name: by an entry, or as the edge of a drawn area.
    fn bears(&self, name: &str) -> bool {
        let areas = &self.answer.sheet.areas;
        let drawn = areas.iter().any(|area| name == format!("{}-start", area.name) || name == format!("{}-end", area.name));
        drawn || !self.answer.axis(self.place.axis).none && self.written(name)
    }

    /// Whether the template writes a name, be it one that counts as none.
    fn written(&self, name: &str) -> bool {
        template::writes(&self.answer.sheet.axis(self.place.axis).template, name)
    }

    /// The names that a placement of this axis could use.
    fn known(&self) -> Vec<String> {
        let names = self.answer.axis(self.place.axis).names.iter().flatten().cloned();
        names.chain(self.answer.sheet.areas.iter().map(|area| area.name.clone())).collect()
    }

    fn where_is(&self, line: i32) -> &'static str {
        match self.lines.place(line) {
            Some(place) if place > self.lines.last() => ", past the end of the grid",
            Some(place) if place < self.lines.first() => ", before the start of the grid",
            _ => "",
        }
    }

    /// An end off the grid; a span, and `auto` as a span of 1, is counted from the line beside it where that lies on the grid.
    fn past(&self, side: &str, resolved: End) -> Option<String> {
        let beside = if side == "end" { self.placement.start } else { self.placement.end };
        let way = if side == "end" { 1 } else { -1 };
        let place = match (resolved, beside) {
            (End::Line(line), _) => self.lines.place(line.into())?,
            (End::Span(by), End::Line(line)) => self.counted(line.into(), way * i32::from(by))?,
            (End::Auto, End::Line(line)) => self.counted(line.into(), way)?,
            _ => return None,
        };
        let line = self.lines.number(place);
        (!self.lines.holds(place)).then(|| format!("the {side} lies on line {line}{}", self.where_is(line)))
    }

    /// The place so many lines from a line of the grid.
    fn counted(&self, line: i32, by: i32) -> Option<i32> {
        self.lines.place(line).filter(|&place| self.lines.holds(place)).map(|place| place + by)
    }

    /// Ends that CSS swaps, or of which it drops one.
    fn order(&self) -> Option<String> {
        let (End::Line(start), End::Line(end)) = (self.placement.start, self.placement.end) else { return None };
        let (from, to) = (self.lines.place(start.into())?, self.lines.place(end.into())?);
        match from.cmp(&to) {
            std::cmp::Ordering::Greater => Some(format!("the start, line {start}, lies after the end, line {end}: CSS swaps them")),
            std::cmp::Ordering::Equal => Some(format!("start and end are the same line, {start}: CSS drops the end")),
            std::cmp::Ordering::Less => None,
        }
    }
}
