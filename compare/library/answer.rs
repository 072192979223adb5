//! A panel's answers in the output form of document 01, its line names, and the number of its name entries.
use crate::palgwern::{Answers, Axis, End, Land, Packing, Pair, Placement, Record, Refusal, Size, Source};
use std::io::Write;

const AXES: [Axis; 2] = [Axis::Columns, Axis::Rows];

fn letter(axis: Axis) -> char {
    match axis {
        Axis::Columns => 'c',
        Axis::Rows => 'r',
    }
}

fn kind_and_value(size: Size) -> (&'static str, f32) {
    match size {
        Size::Length(value) => ("len", value),
        Size::Percent(value) => ("pct", value),
        Size::Fraction(value) => ("fr", value),
        Size::Auto => ("auto", 0.0),
        Size::MinContent => ("min", 0.0),
        Size::MaxContent => ("max", 0.0),
        Size::FitContentLength(value) => ("fitl", value),
        Size::FitContentPercent(value) => ("fitp", value),
    }
}

fn source_letter(source: Source) -> char {
    match source {
        Source::Negative => 'n',
        Source::Template => 't',
        Source::Automatic => 'a',
        Source::Area => 'g',
        Source::Positive => 'p',
        Source::Gutter => '-',
    }
}

fn print_record(out: &mut Vec<u8>, index: usize, record: &Record) {
    let kind = if record.gutter { "gutter" } else { "track" };
    let source = source_letter(record.source);
    let collapsed = if record.collapsed { 'y' } else { 'n' };
    let (low, least) = kind_and_value(record.minimum);
    let (high, most) = kind_and_value(record.maximum);
    writeln!(out, "{index}\t{kind}\t{collapsed}\t{low}\t{:08x}\t{high}\t{:08x}\t{source}", least.to_bits(), most.to_bits()).unwrap();
}

fn print_axis(out: &mut Vec<u8>, panel: &Answers, axis: Axis) {
    let size = panel.size(axis);
    writeln!(out, "size\t{}\t{}\t{}", letter(axis), size.repetitions, size.explicit).unwrap();
    for (index, record) in panel.records(axis).enumerate() {
        print_record(out, index, &record);
    }
}

fn end(end: End) -> String {
    match end {
        End::Auto => "auto\t0".to_string(),
        End::Line(line) => format!("line\t{line}"),
        End::Span(span) => format!("span\t{span}"),
    }
}

/// A placement of the run of all, where it is none of a cell's; a line `alone` where it differs from the one that is asked for alone.
fn print_placement(out: &mut Vec<u8>, panel: &Answers, index: usize, found: Placement) {
    if !found.cell {
        writeln!(out, "place\t{}\t{}\t{}", letter(found.axis), end(found.start), end(found.end)).unwrap();
    }
    if panel.placement(index as u32) != Ok(found) {
        writeln!(out, "alone\t{index}").unwrap();
    }
}

fn print_cell(out: &mut Vec<u8>, Land { columns, rows }: Land) {
    writeln!(out, "cell\t{}\t{}\t{}\t{}", columns[0], columns[1], rows[0], rows[1]).unwrap();
}

/// The lists of the run of all, and of every eighth line a line `alone` where its names differ from those that are asked for alone.
fn print_names(out: &mut Vec<u8>, panel: &Answers, axis: Axis) {
    let mut lists = vec![vec![]; panel.lists(axis) as usize];
    panel.line_names(axis).for_each(|(line, name)| lists[line as usize - 1].push(name));
    for (names, line) in lists.into_iter().zip(1..) {
        let text: String = names.iter().map(|name| format!("\t{name}")).collect();
        writeln!(out, "names\t{}\t{line}{text}", letter(axis)).unwrap();
        if line % 8 == 1 && !panel.names(axis, line).eq(names) {
            writeln!(out, "alone\t{line}").unwrap();
        }
    }
}

/// The marks of a placement.
fn print_marks(out: &mut Vec<u8>, found: Placement) {
    let letter_of = |held: bool| if held { 'y' } else { 'n' };
    writeln!(out, "held\t{}\t{}\t{}", letter(found.axis), letter_of(found.startheld), letter_of(found.endheld)).unwrap();
}

pub fn print_refusal(out: &mut Vec<u8>, refusal: Refusal) {
    writeln!(out, "refused\t{}\t{}", refusal.number(), refusal.line).unwrap();
}

/// The pair of areas that share a cell, where there is one.
pub fn print_pair(out: &mut Vec<u8>, pair: Option<Pair>) {
    if let Some(Pair { earlier, later }) = pair {
        writeln!(out, "pair\t{earlier}\t{later}").unwrap();
    }
}

/// All that a panel answers whose cells are placed.
fn print_placed(out: &mut Vec<u8>, panel: &Answers, lands: Vec<Land>, pair: Option<Pair>) {
    AXES.into_iter().for_each(|axis| print_axis(out, panel, axis));
    let resolved: Vec<Placement> = panel.resolved().collect();
    resolved.iter().enumerate().for_each(|(index, found)| print_placement(out, panel, index, *found));
    lands.into_iter().for_each(|land| print_cell(out, land));
    AXES.into_iter().for_each(|axis| print_names(out, panel, axis));
    resolved.iter().filter(|found| !found.cell).for_each(|found| print_marks(out, *found));
    print_pair(out, pair);
}

/// The whole answer of a panel, edited or only displayed; nothing but the refusal where one of its cells has no place.
pub fn print_whole(out: &mut Vec<u8>, panel: &Answers, pair: Option<Pair>) {
    match panel.place_cells(Packing::Sparse) {
        Ok(lands) => print_placed(out, panel, lands, pair),
        Err(refusal) => print_refusal(out, refusal),
    }
}

/// The same, and the numbers of name entries.
pub fn print_answers(out: &mut Vec<u8>, panel: &Answers, pair: Option<Pair>) {
    print_whole(out, panel, pair);
    let grid = panel.grid();
    writeln!(out, "entries\tc\t{}\nentries\tr\t{}", grid.columns.entries, grid.rows.entries).unwrap();
}
