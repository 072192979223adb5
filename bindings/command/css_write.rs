//! `palgwern to-css`: a sheet as CSS.
use crate::css_areas;
use crate::css_rules::Wrong;
use crate::css_templates::may_name;
use crate::css_tokens::identifier;
use crate::sheet::{AxisSheet, Part, Place, Sheet, Times, Track, Written, AXES};
use crate::values::{self, css_size};
use palgwern::{Axis, Size};

/// The words of an axis in properties: its tracks, its size.
fn words(axis: Axis) -> (&'static str, &'static str) {
    match axis {
        Axis::Columns => ("columns", "width"),
        Axis::Rows => ("rows", "height"),
    }
}

/// The CSS of a sheet, or a line and what CSS can't say.
pub fn write(sheet: &Sheet) -> Result<String, Wrong> {
    if let Some(&line) = sheet.cells.first() {
        return Err((line, "a cell is placed by the panel, and has no rule here".to_string()));
    }
    let mut lines = vec!["display: grid".to_string()];
    lines.extend(AXES.iter().filter_map(|&axis| inner_size(sheet.axis(axis), words(axis).1)));
    for axis in AXES {
        let template = template(&sheet.axis(axis).template)?;
        lines.extend((!template.is_empty()).then(|| format!("grid-template-{}: {template}", words(axis).0)));
    }
    let rows = if sheet.picture.is_empty() { css_areas::write(&sheet.areas)? } else { css_areas::write_rows(&sheet.picture)? };
    let picture: String = rows.iter().map(|row| format!("\n    \"{row}\"")).collect();
    lines.extend((!rows.is_empty()).then(|| format!("grid-template-areas:{picture}")));
    lines.extend(gaps(sheet));
    for axis in AXES {
        lines.extend(beside(sheet.axis(axis), words(axis).0)?);
    }
    let mut text = block("panel", &lines);
    for (at, pair) in pairs(&sheet.places).iter().enumerate() {
        let lines = pair.iter().map(placement).collect::<Result<Vec<_>, _>>()?;
        text += &format!("\n{}", block(&format!("place-{}", at + 1), &lines));
    }
    Ok(text)
}

fn block(name: &str, lines: &[String]) -> String {
    let lines: String = lines.iter().map(|line| format!("  {line};\n")).collect();
    format!(".{name} {{\n{lines}}}\n")
}

fn inner_size(axis: &AxisSheet, property: &str) -> Option<String> {
    let least = if axis.minimum { "min-" } else { "" };
    axis.inner.map(|inner| format!("{least}{property}: {inner}px"))
}

fn gaps(sheet: &Sheet) -> Option<String> {
    let [columns, rows] = AXES.map(|axis| sheet.axis(axis).gap);
    let none = Size::Length(0.0);
    (columns != none || rows != none).then(|| format!("gap: {} {}", css_size(rows), css_size(columns)))
}

/// Sizes of implicit tracks, their numbers and the items, which CSS says by what is in the grid.
fn beside(axis: &AxisSheet, word: &str) -> Result<Vec<String>, Wrong> {
    let sizes = axis.spares.iter().map(|size| track(0, size)).collect::<Result<Vec<_>, _>>()?;
    let items: Vec<String> = axis.items.iter().map(|(_, index)| index.to_string()).collect();
    let mut lines = vec![];
    lines.extend((!sizes.is_empty()).then(|| format!("grid-auto-{word}: {}", sizes.join(" "))));
    lines.extend((axis.extra != (0, 0)).then(|| format!("--extra-{word}: {} {}", axis.extra.0, axis.extra.1)));
    lines.extend((!items.is_empty()).then(|| format!("--item-{word}: {}", items.join(" "))));
    Ok(lines)
}

/// A template: names that follow each other stand in one set.
fn template(parts: &[(usize, Part)]) -> Result<String, Wrong> {
    let mut words: Vec<String> = vec![];
    let mut names: Vec<String> = vec![];
    let set = |names: &mut Vec<String>, words: &mut Vec<String>| {
        words.extend((!names.is_empty()).then(|| format!("[{}]", names.join(" "))));
        names.clear();
    };
    for (line, part) in parts {
        if let Part::Name(one) = part {
            names.push(name(*line, one)?);
            continue;
        }
        set(&mut names, &mut words);
        words.push(match part {
            Part::Repeat(times, inside) => format!("repeat({}, {})", often(*times), template(inside)?),
            Part::Track(size) => track(*line, size)?,
            Part::Name(_) => unreachable!("names are gathered above"),
        });
    }
    set(&mut names, &mut words);
    Ok(words.join(" "))
}

fn often(times: Times) -> String {
    match times {
        Times::Count(count) => count.to_string(),
        Times::Fill => "auto-fill".to_string(),
        Times::Fit => "auto-fit".to_string(),
    }
}

fn track(line: usize, size: &Track) -> Result<String, Wrong> {
    if values::is_fit_content(size.maximum) && size.minimum != Size::Auto {
        return Err((line, "CSS has no minimum but auto beside fit-content".to_string()));
    }
    Ok(values::css_track(size.minimum, size.maximum))
}

fn name(line: usize, text: &str) -> Result<String, Wrong> {
    if may_name(text) {
        Ok(identifier(text))
    } else {
        Err((line, format!("'{text}' is a word of CSS and no name of a line")))
    }
}

/// Placements, each column with the row that follows it.
fn pairs(places: &[Place]) -> Vec<&[Place]> {
    let mut found = vec![];
    let mut rest = places;
    while !rest.is_empty() {
        let pair = matches!(rest, [first, second, ..] if first.axis == Axis::Columns && second.axis == Axis::Rows);
        let (one, others) = rest.split_at(if pair { 2 } else { 1 });
        found.push(one);
        rest = others;
    }
    found
}

fn placement(place: &Place) -> Result<String, Wrong> {
    let property = if place.axis == Axis::Columns { "grid-column" } else { "grid-row" };
    Ok(format!("{property}: {} / {}", end(place.line, &place.start)?, end(place.line, &place.end)?))
}

/// One end of a placement as CSS writes it.
fn end(line: usize, written: &Written) -> Result<String, Wrong> {
    match written {
        Written::Auto => Ok("auto".to_string()),
        Written::Line(0) => Err((line, "CSS has no line 0".to_string())),
        Written::Span(0) | Written::NamedSpan(_, 0) => Err((line, "CSS has no span of 0".to_string())),
        Written::Line(number) => Ok(number.to_string()),
        Written::Named(text, 0) => name(line, text),
        Written::Named(text, number) => Ok(format!("{number} {}", name(line, text)?)),
        Written::Span(by) => Ok(format!("span {by}")),
        Written::NamedSpan(text, by) => Ok(format!("span {by} {}", name(line, text)?)),
    }
}

/// A placement in CSS's words for a picture, also where CSS can't say it; an end that goes without saying is left out.
pub fn shown(place: &Place) -> String {
    let end = |written: &Written| match written {
        Written::Line(0) => "line 0".to_string(),
        Written::Named(text, 0) => text.clone(),
        Written::Named(text, number) => format!("{text} {number}"),
        Written::NamedSpan(text, by) => format!("span {text} {by}"),
        Written::Span(by) => format!("span {by}"),
        Written::Line(number) => number.to_string(),
        Written::Auto => "auto".to_string(),
    };
    let alone = match &place.start {
        Written::Named(_, 0) => place.start == place.end,
        _ => place.end == Written::Auto,
    };
    if alone {
        end(&place.start)
    } else {
        format!("{} / {}", end(&place.start), end(&place.end))
    }
}
