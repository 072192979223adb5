//! Tries names on a panel: prints where its readouts are, and where they would go.
use palgwern::{Axis, End, Land, Packing, Panel, Placement, Refusal};

/// A level over two columns, a reading between two lines named `value`, of which there is one, and two cells.
const SHEET: &str = "area\tlevel\t1\t2\t1\t3\n\
                     name\tc\tvalue\n\
                     track\tc\tauto\t00000000\tauto\t00000000\n\
                     track\tc\tauto\t00000000\tauto\t00000000\n\
                     track\tc\tauto\t00000000\tauto\t00000000\n\
                     place\tc\tnamed\tlevel\t0\tnamed\tlevel\t0\n\
                     place\tc\tnamed\tvalue\t1\tnamed\tvalue\t2\n\
                     cell\tnamed\tvalue\t-1\tauto\t-\t0\tauto\t-\t0\tauto\t-\t0\n\
                     cell\tauto\t-\t0\tauto\t-\t0\tauto\t-\t0\tauto\t-\t0\n";

fn end(end: End) -> String {
    match end {
        End::Auto => "auto\t0".to_string(),
        End::Line(line) => format!("line\t{line}"),
        End::Span(span) => format!("span\t{span}"),
    }
}

/// The placements of `place` lines, and where the cells land.
fn print_readouts(placements: &[Placement], lands: &[Land]) {
    for p in placements.iter().filter(|p| !p.cell) {
        println!("place\t{}\t{}\t{}", if p.axis == Axis::Columns { 'c' } else { 'r' }, end(p.start), end(p.end));
    }
    for Land { columns, rows } in lands {
        println!("cell\t{}\t{}\t{}\t{}", columns[0], columns[1], rows[0], rows[1]);
    }
}

/// The readouts as they are.
fn print_panel(panel: &Panel) -> Result<(), Refusal> {
    print_readouts(&panel.resolved().collect::<Vec<_>>(), &panel.place_cells(Packing::Sparse)?);
    Ok(())
}

/// The readouts as they would be.
fn print_trial(panel: &Panel, line: u32, name: &str) {
    println!("with {name} on line {line}");
    match panel.try_name(Axis::Columns, line, name, Packing::Sparse) {
        Ok(tried) => print_readouts(&tried.placements, &tried.lands),
        Err(r) => println!("refused\t{}\t{}", r.number(), r.line),
    }
}

fn main() -> Result<(), Refusal> {
    let panel = Panel::read(SHEET)?;
    println!("before");
    print_panel(&panel)?;
    print_trial(&panel, 3, "value");
    print_trial(&panel, 2, "level-end");
    print_trial(&panel, 4, "value");
    println!("after, the same");
    print_panel(&panel)
}
