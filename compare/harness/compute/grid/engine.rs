//! What `bindings/examples/engine.rs` does with the library, by the unchanged functions: the same grids, the same text.
use super::panel::{area_axis, letter, print_placement, print_record, records, resolver, template_size, AXES};
use super::types::{NamedLineResolver, OriginZeroLine, TrackCounts};
use crate::geometry::{AbsoluteAxis, Line};
use crate::sheet::{self, Input};
use crate::style::{GridPlacement, OriginZeroGridPlacement};
use std::fmt::Write;
use std::io::BufRead;
use std::ops::Range;

/// The ends of an item in the columns and in the rows.
type Item = [Line<GridPlacement<String>>; 2];

/// Twelve fields: kind, name and number of column start, column end, row start and row end.
fn item(line: &str) -> Item {
    let fields: Vec<&str> = line.split('\t').collect();
    [0, 6].map(|at| Line { start: sheet::placement(&fields[at..at + 3]), end: sheet::placement(&fields[at + 3..at + 6]) })
}

/// The implicit tracks before and after the explicit ones that items need, as taffy estimates them: by the lines of those that have any,
/// then by the longest span of the others.
fn implicit_tracks(explicit: u16, items: &[Line<OriginZeroGridPlacement>]) -> (u16, u16) {
    let (definite, free): (Vec<_>, Vec<_>) = items.iter().copied().partition(Line::<OriginZeroGridPlacement>::is_definite);
    let lines: Vec<_> = definite.iter().map(Line::<OriginZeroGridPlacement>::resolve_definite_grid_lines).collect();
    let first = lines.iter().map(|line| line.start).min().unwrap_or(OriginZeroLine(0));
    let last = lines.iter().map(|line| line.end).max().unwrap_or(OriginZeroLine(0));
    let span = free.iter().map(|item| item.indefinite_span()).max().unwrap_or(0);
    let (negative, positive) = (first.implied_negative_implicit_tracks(), last.implied_positive_implicit_tracks(explicit));
    (negative, if negative + explicit + positive < span { span - explicit - negative } else { positive })
}

fn print_names(out: &mut String, axis: AbsoluteAxis, resolver: &NamedLineResolver<String>) {
    let lists = resolver.detailed_line_names(axis);
    for at in 0..lists.line_count() {
        lists.line(at).iter().for_each(|name| writeln!(out, "name\t{}\t{}\t{name}", letter(axis), at + 1).unwrap());
    }
}

/// The lines of an item that says any, or its span; answers the tracks between the lines.
fn print_extent(out: &mut String, axis: AbsoluteAxis, item: &Line<OriginZeroGridPlacement>, counts: TrackCounts) -> Range<usize> {
    if !item.is_definite() {
        writeln!(out, "span\t{}\t{}", letter(axis), item.indefinite_span()).unwrap();
        return 0..0;
    }
    let Line { start, end } = item.resolve_definite_grid_lines();
    let [first, last] = [start, end].map(|line| line.into_track_vec_index(counts));
    writeln!(out, "lines\t{}\t{}\t{}\t{first}\t{last}", letter(axis), start.0, end.0).unwrap();
    first / 2..last / 2
}

fn print_axis(out: &mut String, input: &mut Input, at: usize, size: (u16, u16), resolver: &NamedLineResolver<String>, items: &[Item]) {
    let (axis, (repetitions, explicit)) = (AXES[at], size);
    writeln!(out, "size\t{}\t{repetitions}\t{explicit}", letter(axis)).unwrap();
    print_names(out, axis, resolver);
    let resolved: Vec<_> = items.iter().map(|item| resolver.resolve_line_names(&item[at], area_axis(axis))).collect();
    resolved.iter().for_each(|line| print_placement(out, axis, line.clone()));
    let placed: Vec<_> = resolved.iter().map(|line| line.into_origin_zero(explicit)).collect();
    let (negative, positive) = implicit_tracks(explicit, &placed);
    writeln!(out, "implicit\t{}\t{negative}\t{positive}", letter(axis)).unwrap();
    let counts = TrackCounts::from_raw(negative, explicit, positive);
    let own = input.axis_mut(axis);
    (own.negative, own.positive) = (negative, positive);
    own.items = placed.iter().flat_map(|item| print_extent(out, axis, item, counts)).collect();
    records(input, axis, explicit, repetitions).iter().enumerate().for_each(|(index, track)| print_record(out, index, track));
}

fn print_layout(out: &mut String, input: &mut Input, items: &[Item]) {
    let sizes = AXES.map(|axis| template_size(input, &input.style, axis));
    let (resolver, explicit) = resolver(input, sizes, &[]);
    for at in 0..AXES.len() {
        print_axis(out, input, at, (sizes[at].0, explicit[at]), &resolver, items);
    }
}

/// The layout of a grid, then that with the inner size of the line `resize`.
fn answer(sheet: &str, items: &[Item], resize: &str) -> String {
    let (mut out, mut input) = ("grid\n".to_string(), sheet::read(sheet));
    print_layout(&mut out, &mut input, items);
    let fields: Vec<&str> = resize.split('\t').collect();
    let axis = if fields[1] == "c" { AbsoluteAxis::Horizontal } else { AbsoluteAxis::Vertical };
    input.axis_mut(axis).inner = Some(sheet::number_of_bits(fields[2]));
    writeln!(out, "{resize}").unwrap();
    print_layout(&mut out, &mut input, items);
    out
}

/// Every grid: the lines of a sheet, `items`, a line for each item, and the line `resize`.
pub(crate) fn run(input: impl BufRead) {
    let (mut sheet, mut items, mut in_items) = (String::new(), Vec::new(), false);
    for line in input.lines().map(Result::unwrap) {
        if line.starts_with("resize\t") {
            print!("{}", answer(&std::mem::take(&mut sheet), &std::mem::take(&mut items), &line));
            in_items = false;
        } else if in_items {
            items.push(item(&line));
        } else if line == "items" {
            in_items = true;
        } else {
            sheet += &(line + "\n");
        }
    }
}
