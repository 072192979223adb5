//! What layout code does with taffy's functions on grid lines, for items that no sheet lists: the sizes, the lines of the items, the
//! implicit tracks that these need, and the records of all tracks.
use palgwern::*;

/// Columns of 100 pixels that fold away where they are empty, an area over the first, and a size for implicit columns.
const STYLE: &str = "axis\tc\t43960000\tmax\tlen\t00000000\n\
                     area\tlevel\t1\t2\t1\t2\n\
                     repeat\tc\tfit\n\
                     name\tc\treading\n\
                     track\tc\tlen\t42c80000\tlen\t42c80000\n\
                     end\tc\n\
                     spare\tc\tlen\t42200000\tlen\t42200000\n";

/// The columns and the rows of each item.
const ITEMS: [[(GivenEnd, GivenEnd); 2]; 3] = [
    [(GivenEnd::Named(b"level", 0), GivenEnd::Named(b"level", 0)); 2],
    [(GivenEnd::Named(b"reading", 3), GivenEnd::Span(2)), (GivenEnd::Line(1), GivenEnd::Span(1))],
    [(GivenEnd::Line(-6), GivenEnd::Line(-5)), (GivenEnd::Auto, GivenEnd::Span(3))],
];

fn end(end: End) -> String {
    match end {
        End::Auto => "auto\t0".to_string(),
        End::Line(line) => format!("line\t{line}"),
        End::Span(span) => format!("span\t{span}"),
    }
}

/// The first and the last of an item's lines, counted from the first explicit line, 0; of an item without lines those of its span from there on.
fn lines_of(placed: &Placement, explicit: u32) -> Result<(i32, i32), Refusal> {
    let line = |line: i16| into_origin_zero_line(line.into(), explicit).map(|line| line.line);
    let span = |end| if let End::Span(span) = end { i32::from(span) } else { 1 };
    Ok(match (placed.start, placed.end) {
        (End::Line(start), End::Line(end)) => {
            let (start, end) = (line(start)?, line(end)?);
            (start.min(end), end.max(start).max(start.min(end) + 1))
        }
        (End::Line(start), end) => (line(start)?, line(start)? + span(end)),
        (start, End::Line(end)) => (line(end)? - span(start), line(end)?),
        (start, end) => (0, span(start).max(span(end))),
    })
}

/// The tracks of an axis that the items need, and which of them have items.
fn tracks_of(placed: &[Placement], explicit: u32) -> Result<(TrackCounts, Vec<u8>), Refusal> {
    let lines = placed.iter().map(|placed| lines_of(placed, explicit)).collect::<Result<Vec<_>, _>>()?;
    let first = lines.iter().map(|(start, _)| *start).min().unwrap_or(0).min(0);
    let last = lines.iter().map(|(_, end)| *end).max().unwrap_or(0).max(explicit as i32);
    let counts = TrackCounts { negative: first.unsigned_abs(), explicit, positive: last as u32 - explicit };
    let mut items = vec![0; (last - first) as usize];
    for (start, end) in lines {
        items[counts.next_track(start)? as usize..counts.next_track(end)? as usize].fill(1);
    }
    Ok((counts, items))
}

fn print_axis(panel: &Panel, axis: Axis, placed: &[Placement]) -> Result<(), Refusal> {
    let letter = if axis == Axis::Columns { 'c' } else { 'r' };
    let size = panel.size(axis);
    println!("size\t{letter}\t{}\t{}", size.repetitions, size.explicit);
    for placed in placed {
        println!("place\t{letter}\t{}\t{}", end(placed.start), end(placed.end));
    }
    let (counts, items) = tracks_of(placed, size.explicit)?;
    println!("tracks\t{letter}\t{}\t{}\t{}", counts.negative, counts.explicit, counts.positive);
    let tracks = panel.with_implicit(axis, counts.negative, counts.positive)?;
    let mut words = vec![0; RECORD_WORDS * (2 * items.len() + 1)];
    tracks.write_records(axis, &items, 0, &mut words)?;
    for record in words.chunks_exact(RECORD_WORDS).map(|words| Record::of(words.try_into().unwrap())).filter(|record| !record.gutter) {
        let bits = if let Size::Length(length) = record.maximum { length.to_bits() } else { 0 };
        println!("{:?}\t{bits:08x}{}", record.source, if record.collapsed { "\tcollapsed" } else { "" });
    }
    Ok(())
}

fn main() -> Result<(), Box<dyn std::error::Error>> {
    let panel = Panel::read(STYLE)?;
    for (index, axis) in [Axis::Columns, Axis::Rows].into_iter().enumerate() {
        let given = ITEMS.map(|item| Given { axis, start: item[index].0, end: item[index].1 });
        print_axis(&panel, axis, &panel.resolve_given(&given)?)?;
    }
    Ok(())
}
