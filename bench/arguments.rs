//! What layout code gives by argument, beside the Rust's own functions: placements that no sheet lists, another inner size, and implicit
//! counts before the records.
use crate::compute::grid::panel::theirs::Theirs;
use crate::palgwern::{Axis, Given, GivenEnd, Panel, PLACEMENT_RUN, RECORD_WORDS};
use crate::panels::{self, Sheet};
use crate::table::{grouped, number, time};
use crate::timing::pair;
use std::hint::black_box;

/// The placement that is given: the third of each panel, in the columns, a line by a name and a span by another.
const PLACED: usize = 2;
/// The implicit tracks that are given.
const COUNTS: (u16, u16) = (4, 8);

fn end<'a>(fields: &[&'a str]) -> GivenEnd<'a> {
    let name = fields[1].as_bytes();
    match fields[0] {
        "line" => GivenEnd::Line(fields[2].parse().unwrap()),
        "named" => GivenEnd::Named(name, fields[2].parse().unwrap()),
        "span" => GivenEnd::Span(fields[2].parse().unwrap()),
        "nspan" => GivenEnd::NamedSpan(name, fields[2].parse().unwrap()),
        _ => GivenEnd::Auto,
    }
}

/// The `place` lines of a sheet by argument.
fn given(text: &str) -> Vec<Given<'_>> {
    let lines = text.lines().map(|line| line.split('\t').collect::<Vec<&str>>()).filter(|fields| fields[0] == "place");
    let axis = |letter: &str| if letter == "c" { Axis::Columns } else { Axis::Rows };
    lines.map(|fields| Given { axis: axis(fields[1]), start: end(&fields[2..5]), end: end(&fields[5..8]) }).collect()
}

fn read(sheet: &Sheet) -> Panel {
    Panel::read(&sheet.text).unwrap_or_else(|refusal| panic!("{refusal}"))
}

/// The name entries of both axes.
fn entries(panel: &Panel) -> usize {
    (panel.grid().columns.entries + panel.grid().rows.entries) as usize
}

/// Placements by argument at one call beside the Rust's by themselves: the times of a call, and of each placement.
fn print_placements(sheet: &Sheet, given: &[Given], theirs: impl FnMut()) {
    let (panel, mut numbers) = (read(sheet), [0; PLACEMENT_RUN]);
    let (ours, rust) = pair(|| black_box(panel.write_given(black_box(given), &mut numbers)).is_ok(), theirs);
    let (count, ratio) = (given.len(), number(ours / rust));
    let [our_each, their_each] = [ours, rust].map(|all| number(all / count as f64));
    let [ours, rust] = [ours, rust].map(time);
    println!("| {} | {} | {count} | {ours} | {rust} | {our_each} | {their_each} | {ratio} |", sheet.panel, grouped(entries(&panel)));
}

/// One placement of the columns at a call of its own, and all of the panel's at one.
fn placements(sheet: &Sheet) {
    let (theirs, given) = (Theirs::new(&sheet.text), given(&sheet.text));
    let resolved = read(sheet).resolve_given(&given).unwrap_or_else(|refusal| panic!("{refusal}"));
    assert!(read(sheet).resolved().eq(resolved));
    print_placements(sheet, &given[PLACED..PLACED + 1], || _ = theirs.placement(PLACED));
    print_placements(sheet, &given, || theirs.placements());
}

/// Two inner sizes by turns, the axis's own and half of it: names written out anew on both sides.
fn resize(sheet: &Sheet) {
    let (mut panel, mut again, mut theirs) = (read(sheet), read(sheet), Theirs::new(&sheet.text));
    let own = f32::from_bits(panel.grid().columns.space.inner);
    let (entries, sizes) = (entries(&panel), [own / 2.0, own]);
    for inner in sizes {
        panel.resize(Axis::Columns, inner).unwrap_or_else(|refusal| panic!("{refusal}"));
        theirs.resize(inner);
        let size = panel.size(Axis::Columns);
        assert!((size.repetitions as u16, size.explicit as u16) == theirs.size_now());
    }
    let (mut ours_at, mut theirs_at) = (0, 0);
    let next = |at: &mut usize| {
        *at += 1;
        black_box(sizes[*at % 2])
    };
    let mut resized = || black_box(panel.resize(Axis::Columns, next(&mut ours_at))).is_ok();
    let (ours, rust) = pair(&mut resized, || theirs.resize(next(&mut theirs_at)));
    let (reading, _) = pair(|| black_box(again.read_again(black_box(&sheet.text))).is_ok(), || ());
    let [ours_time, rust_time, reading] = [ours, rust, reading].map(time);
    println!("| {} | {} | {ours_time} | {rust_time} | {} | {reading} |", sheet.panel, grouped(entries), number(ours / rust));
}

/// Implicit counts by argument, and the records of the columns with them.
fn records(sheet: &Sheet) {
    let (panel, mut theirs) = (read(sheet), Theirs::new(&sheet.text));
    let (negative, positive) = COUNTS;
    let grid = panel.with_implicit(Axis::Columns, negative.into(), positive.into()).unwrap_or_else(|refusal| panic!("{refusal}"));
    let count = grid.record_count(Axis::Columns);
    let mut words = vec![0; count * RECORD_WORDS];
    assert!(theirs.records_with(negative, positive) == count);
    let mut written = || panel.records_with(Axis::Columns, negative.into(), positive.into(), &mut words);
    let (ours, rust) = pair(&mut written, || theirs.records_with(negative, positive));
    assert!(theirs.column_records() == crate::ours::without_sources(words));
    println!("| {} | {} | {} | {} | {} |", sheet.panel, grouped(count), time(ours), time(rust), number(ours / rust));
}

pub(crate) fn print() {
    let [small, medium, large, distinct, most] = panels::all();
    println!("| Panel | Entries | Placements by argument | Ours | the Rust | Ours, ns each | the Rust, ns each | Ratio |");
    println!("|---|---|---|---|---|---|---|---|");
    [&small, &medium, &large].into_iter().for_each(placements);
    println!();
    println!("| Panel | Entries | A resize | the Rust: size and names | Ratio | the sheet read again |");
    println!("|---|---|---|---|---|---|");
    [&small, &medium, &large, &distinct].into_iter().for_each(resize);
    println!();
    println!("| Panel | Records | Counts and records | the Rust | Ratio |");
    println!("|---|---|---|---|---|");
    [&small, &medium, &large, &most].into_iter().for_each(records);
}
