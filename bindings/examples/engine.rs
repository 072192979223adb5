//! What a layout engine asks of a grid: its size, its line names, the lines of items that no sheet lists, the implicit tracks that these
//! need, the place of each line among the tracks, and the track records; then all of it once more at another inner size.
//!
//! Grids come in on standard input. Each is the lines of a sheet, the line `items`, a line for each item, which has the twelve fields of
//! a `cell` line (kind, name and number of column start, column end, row start and row end), and the line `resize`, an axis and the bits
//! of an inner size. `compare/engine` holds what is printed to taffy's own functions.
use palgwern::{into_origin_zero_line, Answers, Axis, End, Given, GivenEnd, Panel, Placement, Refusal, RECORD_WORDS};
use std::error::Error;
use std::io::stdin;

/// No item spans more tracks.
const MOST_SPAN: i32 = 10_000;

fn letter(axis: Axis) -> char {
    if axis == Axis::Columns { 'c' } else { 'r' }
}

fn given_end<'a>(fields: &[&'a str]) -> GivenEnd<'a> {
    let name = fields[1].as_bytes();
    match fields[0] {
        "line" => GivenEnd::Line(fields[2].parse().unwrap()),
        "named" => GivenEnd::Named(name, fields[2].parse().unwrap()),
        "span" => GivenEnd::Span(fields[2].parse().unwrap()),
        "nspan" => GivenEnd::NamedSpan(name, fields[2].parse().unwrap()),
        _ => GivenEnd::Auto,
    }
}

/// An item on one axis.
fn given(item: &str, axis: Axis) -> Given<'_> {
    let fields: Vec<&str> = item.split('\t').collect();
    let at = 6 * axis as usize;
    Given { axis, start: given_end(&fields[at..at + 3]), end: given_end(&fields[at + 3..at + 6]) }
}

/// An end as an origin-zero line, or as a span of at least one track; line 0 says nothing.
fn position(end: End, explicit: u32) -> Result<(Option<i32>, Option<i32>), Refusal> {
    Ok(match end {
        End::Auto | End::Line(0) => (None, None),
        End::Line(line) => (Some(into_origin_zero_line(line.into(), explicit)?.line), None),
        End::Span(span) => (None, Some(i32::from(span).clamp(1, MOST_SPAN))),
    })
}

/// Where an item lies: between two origin-zero lines, or still anywhere, over so many tracks.
#[derive(Clone, Copy)]
enum Extent {
    Between(i32, i32),
    Anywhere(i32),
}

/// CSS Grid Level 1, 8.3.1: ends in the wrong order change places, of two equal lines the end is dropped, a span that is missing is 1.
fn extent(item: &Placement, explicit: u32) -> Result<Extent, Refusal> {
    let ((start, before), (end, after)) = (position(item.start, explicit)?, position(item.end, explicit)?);
    Ok(match (start, end) {
        (Some(start), Some(end)) if start != end => Extent::Between(start.min(end), start.max(end)),
        (Some(start), _) => Extent::Between(start, start + after.unwrap_or(1)),
        (None, Some(end)) => Extent::Between(end - before.unwrap_or(1), end),
        (None, None) => Extent::Anywhere(before.or(after).unwrap_or(1)),
    })
}

/// How many implicit tracks before and after the explicit ones the items need: by their lines, then by the longest span that is still free.
fn implicit_tracks(explicit: u32, extents: &[Extent]) -> (u32, u32) {
    let (mut first, mut last, mut longest) = (0, explicit as i32, 0);
    for extent in extents {
        match *extent {
            Extent::Between(start, end) => (first, last) = (first.min(start), last.max(end)),
            Extent::Anywhere(span) => longest = longest.max(span),
        }
    }
    (-first as u32, (last.max(first + longest) - explicit as i32) as u32)
}

fn end(end: End) -> String {
    match end {
        End::Auto => "auto\t0".to_string(),
        End::Line(line) => format!("line\t{line}"),
        End::Span(span) => format!("span\t{span}"),
    }
}

/// A size of a record: its kind, and its bits.
fn size(word: u64) -> String {
    let kinds = ["len", "pct", "fr", "auto", "min", "max", "fitl", "fitp"];
    format!("{}\t{:08x}", kinds[(word >> 32) as usize], word as u32)
}

fn print_axis(panel: &Panel, axis: Axis, items: &[String]) -> Result<(), Box<dyn Error>> {
    let (c, explicit) = (letter(axis), panel.size(axis).explicit);
    println!("size\t{c}\t{}\t{explicit}", panel.size(axis).repetitions);
    panel.line_names(axis).for_each(|(line, name)| println!("name\t{c}\t{line}\t{name}"));
    let given: Vec<Given> = items.iter().map(|item| given(item, axis)).collect();
    let placements = panel.resolve_given(&given)?;
    placements.iter().for_each(|item| println!("place\t{c}\t{}\t{}", end(item.start), end(item.end)));
    let extents = placements.iter().map(|item| extent(item, explicit)).collect::<Result<Vec<_>, _>>()?;
    let (negative, positive) = implicit_tracks(explicit, &extents);
    println!("implicit\t{c}\t{negative}\t{positive}");
    let grid = panel.with_implicit(axis, negative, positive)?;
    let counts = grid.track_counts(axis);
    let mut occupied = vec![0; (negative + explicit + positive) as usize];
    for extent in extents {
        match extent {
            Extent::Anywhere(span) => println!("span\t{c}\t{span}"),
            Extent::Between(start, end) => {
                let (first, last) = (counts.line_record(start)?.unwrap(), counts.line_record(end)?.unwrap());
                println!("lines\t{c}\t{start}\t{end}\t{first}\t{last}");
                occupied[first as usize / 2..last as usize / 2].fill(1);
            }
        }
    }
    print_records(&grid, axis, &occupied)
}

/// The records of an axis, which collapse where a `fit` track is not occupied.
fn print_records(grid: &Answers, axis: Axis, occupied: &[u8]) -> Result<(), Box<dyn Error>> {
    let mut words = vec![0; grid.record_count(axis) * RECORD_WORDS];
    grid.write_records(axis, occupied, 0, &mut words)?;
    for (at, words) in words.chunks_exact(RECORD_WORDS).enumerate() {
        let (kind, collapsed) = (["track", "gutter"][(words[0] & 1) as usize], ["n", "y"][(words[0] >> 1 & 1) as usize]);
        println!("{at}\t{kind}\t{collapsed}\t{}\t{}", size(words[1]), size(words[2]));
    }
    Ok(())
}

fn print_layout(panel: &Panel, items: &[String]) -> Result<(), Box<dyn Error>> {
    print_axis(panel, Axis::Columns, items)?;
    print_axis(panel, Axis::Rows, items)
}

/// A grid as it is, and at the inner size of the line `resize`.
fn print_grid(sheet: &str, items: &[String], resize: &str) -> Result<(), Box<dyn Error>> {
    println!("grid");
    let mut panel = Panel::read(sheet)?;
    print_layout(&panel, items)?;
    let fields: Vec<&str> = resize.split('\t').collect();
    let axis = if fields[1] == "c" { Axis::Columns } else { Axis::Rows };
    panel.resize(axis, f32::from_bits(u32::from_str_radix(fields[2], 16).unwrap()))?;
    println!("{resize}");
    print_layout(&panel, items)
}

fn main() {
    let (mut sheet, mut items, mut in_items) = (String::new(), Vec::new(), false);
    for line in stdin().lines().map(Result::unwrap) {
        if line.starts_with("resize\t") {
            if let Err(refusal) = print_grid(&sheet, &items, &line) {
                println!("{refusal}");
            }
            (sheet, items, in_items) = (String::new(), Vec::new(), false);
        } else if in_items {
            items.push(line);
        } else if line == "items" {
            in_items = true;
        } else {
            sheet += &(line + "\n");
        }
    }
}
