//! The words for a refusal: the library gives number and line, the text the field and what is expected.
use crate::before::Before;
use crate::fields::{fault, Fault};
use crate::forms::{form_of, nearest, Form, FORMS};
use crate::limits;
use crate::refusals;
use crate::sheet::{Sheet, AXES};
use crate::template;
use crate::text::{grouped, lines, listed, quoted, Line};
use palgwern::{Axis, Panel, Refusal};

const UNREAD: u32 = 1;
const COUNT: u32 = 4;
const CROWDED: u32 = 8;
/// What some editors write before the first line.
const BYTE_ORDER_MARK: &[u8] = b"\xef\xbb\xbf";

/// A refusal in words: the line, the number and its word, and what was found, or else what the number means.
pub fn words(sheet: &[u8], refusal: Refusal) -> String {
    let number = refusal.number();
    let at = if refusal.line == 0 { String::new() } else { format!("line {}: ", refusal.line) };
    let found = found(sheet, refusal.line as usize).into_iter().find(|(of, _)| *of == number);
    let said = found.map_or(refusals::meaning(number).to_string(), |(_, words)| words);
    format!("{at}refused by {number} ({}): {said}", refusals::word(number))
}

/// The faults that the text shows at a line, 0 being the sheet as a whole.
fn found(sheet: &[u8], at: usize) -> Vec<Fault> {
    if at == 0 {
        return too_long(sheet).into_iter().collect();
    }
    let (lines, mut before) = (lines(sheet), Before::default());
    for line in &lines[..(at - 1).min(lines.len())] {
        before.add(line);
    }
    match lines.get(at - 1) {
        Some(line) => of_line(line, &before),
        None => after_the_last(sheet, &before),
    }
}

fn too_long(sheet: &[u8]) -> Option<Fault> {
    let words = || format!("the sheet has {} bytes, and {} are the most", grouped(sheet.len() as i64), grouped(limits::SHEET_BYTES as i64));
    (sheet.len() > limits::SHEET_BYTES).then(|| (UNREAD, words()))
}

/// The faults of a line: its form, its fields, and what stands before it.
fn of_line(line: &Line, before: &Before) -> Vec<Fault> {
    let mut found: Vec<Fault> = of_form(line).into_iter().map(|words| (UNREAD, words)).collect();
    if let Some(form) = form_of(line.word()).filter(|form| found.is_empty() && form.has_fields(line.fields.len())) {
        found.extend(of_fields(line, form));
        found.extend(before.faults(line));
    }
    let unended = "the last line has no line feed at its end; every line ends in one";
    found.extend((!line.ended).then(|| (UNREAD, unended.to_string())));
    found
}

/// The faults of the fields of a line, each with the field's number and what it is called.
fn of_fields(line: &Line, form: &Form) -> Vec<Fault> {
    let of = |at: usize| {
        let (label, field) = form.field(at);
        let (number, words) = fault(&line.fields, at + 1, field)?;
        let returned = line.fields[at + 1].ends_with(b"\r") && !words.contains("carriage return");
        let also = if returned { "; it ends in a carriage return, and lines end in a line feed alone" } else { "" };
        Some((number, format!("field {}, the {label}: {words}{also}", at + 2)))
    };
    (0..line.fields.len() - 1).filter_map(of).collect()
}

/// A line of no form: empty, of an unknown word, or with fields too few or too many.
fn of_form(line: &Line) -> Option<String> {
    let (word, count) = (line.word(), line.fields.len());
    if count == 1 && word.is_empty() {
        return Some("the line is empty; a sheet has no empty lines".to_string());
    }
    let Some(form) = form_of(word) else { return Some(unknown(line)) };
    let labels: Vec<&str> = form.fields.iter().map(|(label, _)| *label).collect();
    let expected = format!("'{}' and then {}", form.word, labels.join(", "));
    let count_words = format!("the line has {count} fields, and {} are expected: {expected}", labels.len() + 1);
    let no_words = "the row has no word: names and dots are expected, one for each cell".to_string();
    (!form.has_fields(count)).then_some(if form.is_row() { no_words } else { count_words })
}

fn unknown(line: &Line) -> String {
    let word = String::from_utf8_lossy(line.word()).into_owned();
    let words: Vec<&str> = FORMS.iter().map(|form| form.word).collect();
    let first = word.split(' ').next().unwrap_or("");
    if line.fields.len() == 1 && word.contains(' ') && words.contains(&first) {
        return format!("{} has spaces between its fields; fields are parted by one tab each", quoted(line.word()));
    }
    if line.word().starts_with(BYTE_ORDER_MARK) {
        return "field 1: a byte order mark stands before the first word; a sheet has none".to_string();
    }
    let near = nearest(&word, words.iter().copied()).map_or(String::new(), |one| format!("; '{one}' is meant?"));
    format!("field 1: {} begins no line of a sheet: {} is expected{near}", quoted(line.word()), listed(&words))
}

/// What is wrong with a sheet whose lines are all good.
fn after_the_last(sheet: &[u8], before: &Before) -> Vec<Fault> {
    let mut found: Vec<Fault> = vec![];
    for line in before.open() {
        found.push((UNREAD, format!("the repeat of line {line} is left open; an 'end' line closes it")));
    }
    let parts = Sheet::read(sheet);
    for axis in AXES {
        let (alone, template) = (without_other(sheet, axis), &parts.axis(axis).template);
        let number = Panel::read(&alone).err().map_or(0, Refusal::number);
        let written = format!("the template of the {} writes", plural(axis));
        found.extend((number == COUNT).then(|| (COUNT, passes(&written, template::tracks(template), limits::TRACKS, "tracks"))));
        found.extend(
            (number == CROWDED).then(|| (CROWDED, passes(&written, template::entries(template), limits::ENTRIES as i64, "name entries"))),
        );
    }
    found
}

/// The sheet without the lines of the other axis.
fn without_other(sheet: &[u8], axis: Axis) -> Vec<u8> {
    let other = if axis == Axis::Columns { b"r" } else { b"c" };
    let kept = lines(sheet).into_iter().filter(|line| matches!(line.word(), b"area" | b"row") || line.fields.get(1) != Some(&&other[..]));
    kept.flat_map(|line| [line.fields.join(&b'\t'), b"\n".to_vec()].concat()).collect()
}

/// A number that passes a limit, in words; what an automatic repeat adds to it is not known.
fn passes(written: &str, (number, automatic): (u64, bool), most: i64, what: &str) -> String {
    let most = grouped(most);
    if automatic {
        format!("{written} more than {most} {what}")
    } else {
        format!("{written} {} {what}, and {most} are the most", grouped(number as i64))
    }
}

/// What an axis's tracks are called.
pub fn plural(axis: Axis) -> &'static str {
    match axis {
        Axis::Columns => "columns",
        Axis::Rows => "rows",
    }
}

/// What a track or a line of an axis is called.
pub fn singular(axis: Axis) -> &'static str {
    match axis {
        Axis::Columns => "column",
        Axis::Rows => "row",
    }
}
