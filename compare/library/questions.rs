//! Questions to a panel, each a row, asked on lent buffers; the answers in the form of the lists.
use crate::calls::{self, Numbers};
use crate::cells;
use crate::cursor;
use crate::lent::*;
use crate::palgwern::{Grid, State};
use crate::runs;
use crate::trials;
use std::io::Write;

/// The item bytes of an axis, as many as are lent, and stores of the lengths that are lent.
fn lend(lent: &mut Lent, axis: u32, lengths: &[usize]) {
    let marks = BYTE_REGIONS[axis as usize].clone();
    let items = lent.bytes[PANEL].content()[marks][..lengths[0]].to_vec();
    lent.bytes[ITEMS].fill_with(&items);
    for (store, length) in [COLUMN_STORE, ROW_STORE].into_iter().zip(&lengths[1..]) {
        lent.bytes[store].resize(*length, 0);
    }
    cursor::lend_hits(lent);
}

fn print_found(out: &mut Vec<u8>, word: &str, number: u32, found: &[i64]) {
    if number != 0 {
        return writeln!(out, "refused\t{number}\t0").unwrap();
    }
    write!(out, "{word}").unwrap();
    found.iter().for_each(|found| write!(out, "\t{found}").unwrap());
    out.push(b'\n');
}

fn hits(lent: &Lent, count: u64) -> Vec<i64> {
    cursor::hits(lent).take(count as usize).map(i64::from).collect()
}

/// The least resize of an axis; `-` where no size differs.
fn print_resize(out: &mut Vec<u8>, lent: &Lent, grid: Grid, axis: u32) {
    let answer = calls::least_resize(lent, grid, Numbers { axis, line: 0, place: 0 });
    match (answer.number, answer.found) {
        (0, 0) if answer.size == 0 => out.extend_from_slice(b"resize\t-\n"),
        _ => print_found(out, "resize", answer.number, &[i64::from(answer.size)]),
    }
}

/// A copy with stores of these lengths.
fn with_stores(lent: &Lent, lengths: &[&str]) -> Lent {
    let mut lent = lent.clone();
    for (store, length) in [COLUMN_STORE, ROW_STORE].into_iter().zip(lengths) {
        lent.bytes[store].resize(length.parse().expect("a length"), 0);
    }
    lent
}

/// The four lines of a land.
fn lines_of(word: u64) -> [i64; 4] {
    [0, 16, 32, 48].map(|at| (word >> at & 0xffff) as i64)
}

/// Where the cells land, with stores of the lengths that are lent.
fn print_cells(out: &mut Vec<u8>, lent: &Lent, grid: Grid, packing: &str, lengths: &[&str]) {
    let mut lent = with_stores(lent, lengths);
    cells::lend_lands(&mut lent);
    let answer = cells::place_cells(&mut lent, grid, u32::from(packing == "dense"));
    if answer.number != 0 {
        return writeln!(out, "refused\t{}\t{}", answer.number, answer.line).unwrap();
    }
    let words = &lent.words[RUN].content()[..answer.count as usize];
    print_found(out, "cells", 0, &words.iter().flat_map(|&word| lines_of(word)).collect::<Vec<_>>());
}

/// The two ends of a placement, and their marks.
fn print_ends(out: &mut Vec<u8>, [startkind, startnumber, endkind, endnumber, startheld, endheld]: [i32; 6]) {
    let kind = |kind: i32| ["auto", "line", "", "span"][kind as usize];
    let mark = |held: i32| if held == 0 { 'n' } else { 'y' };
    writeln!(out, "\t{}\t{startnumber}\t{}\t{endnumber}\t{}\t{}", kind(startkind), kind(endkind), mark(startheld), mark(endheld)).unwrap();
}

/// A placement of a trial's run.
fn print_tried(out: &mut Vec<u8>, numbers: &[i32]) {
    let word = if numbers[1] & 2 == 0 { "place" } else { "settled" };
    write!(out, "{word}\t{}", ['c', 'r'][(numbers[1] & 1) as usize]).unwrap();
    print_ends(out, numbers[2..8].try_into().expect("two ends and their marks"));
}

/// A name that is tried: axis, line, name, packing, lengths of the stores; a line `changed` where anything but the answer is written.
fn print_trial(out: &mut Vec<u8>, lent: &Lent, state: State, fields: &[&str]) {
    let mut lent = with_stores(lent, &fields[4..]);
    lent.bytes[TEXT].fill_with(fields[2].as_bytes());
    trials::lend_answers(&mut lent);
    let before = lent.clone();
    let (axis, place) = (u32::from(fields[0] == "r"), u32::from(fields[3] == "dense"));
    let answer = trials::try_name(&mut lent, state, Numbers { axis, line: fields[1].parse().expect("a line"), place });
    let written = [RUN, TRIED_LANDS].map(|at| (at, if answer.number == 0 { before.words[at].whole() } else { 0..0 }));
    if !lent.is_but_for(&before, &written, &[]) {
        out.extend_from_slice(b"changed\n");
    }
    if answer.number != 0 {
        return writeln!(out, "refused\t{}\t{}", answer.number, answer.line).unwrap();
    }
    writeln!(out, "tried\t{}\t{}", answer.placements, answer.cells).unwrap();
    runs::numbers(&lent).chunks(8).take(answer.placements as usize).for_each(|numbers| print_tried(out, numbers));
    lent.words[TRIED_LANDS].content()[..answer.cells as usize].iter().for_each(|&word| print_found(out, "cell", 0, &lines_of(word)));
}

/// The settled ends of a cell on an axis, and their marks.
fn print_settled(out: &mut Vec<u8>, lent: &Lent, grid: Grid, axis: u32, cell: usize) {
    let mut lent = lent.clone();
    let placements = (0..grid.placements).map(|place| calls::resolve_placement(&mut lent, grid, Numbers { axis, line: 0, place }));
    // Those of the cells are marked, two for each.
    let found = placements.filter(|found| found.axis & 2 != 0).nth(2 * cell + axis as usize).expect("a cell");
    out.extend_from_slice(b"settled");
    print_ends(out, [found.startkind as i32, found.startnumber, found.endkind as i32, found.endnumber, found.startheld as i32, found.endheld as i32]);
}

/// One question, on a copy of what is lent.
fn print_question(out: &mut Vec<u8>, lent: &Lent, state: State, row: &str) {
    let (fields, grid): (Vec<&str>, Grid) = (row.split('\t').collect(), state.grid);
    if fields[0] == "try" {
        return print_trial(out, lent, state, &fields[1..]);
    }
    if fields[0] == "cells" {
        return print_cells(out, lent, grid, fields[1], &fields[2..]);
    }
    let bits = |field: &str| u32::from_str_radix(field, 16).expect("bits");
    let axis = if fields[1] == "c" { 0 } else { 1 };
    if fields[0] == "resize" {
        return print_resize(out, lent, grid, axis);
    }
    if fields[0] == "settled" {
        return print_settled(out, lent, grid, axis, fields[2].parse().expect("a cell"));
    }
    let arguments = if fields[0] == "within" { 2 } else { 1 };
    let lengths: Vec<usize> = fields[2 + arguments..].iter().map(|field| field.parse().expect("a length")).collect();
    let mut lent = lent.clone();
    lend(&mut lent, axis, &lengths);
    let numbers = |line, place| Numbers { axis, line, place };
    match fields[0] {
        "nearest" => {
            let answer = cursor::nearest_line(&lent, grid, numbers(bits(fields[2]), 0));
            print_found(out, fields[0], answer.number, &[i64::from(answer.line)]);
        }
        "within" => {
            let answer = cursor::placements_within(&mut lent, grid, numbers(bits(fields[2]), bits(fields[3])));
            print_found(out, fields[0], answer.number, &hits(&lent, answer.count));
        }
        "around" => {
            let line: i32 = fields[2].parse().expect("a line");
            let answer = cursor::placements_around(&mut lent, grid, numbers(line as u32, 0));
            print_found(out, fields[0], answer.number, &hits(&lent, answer.count));
        }
        _ => panic!("no such question"),
    }
}

pub fn print_questions(out: &mut Vec<u8>, lent: &Lent, state: State, rows: &[String]) {
    rows.iter().for_each(|row| print_question(out, lent, state, row));
}
