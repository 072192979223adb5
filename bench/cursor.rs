//! The line nearest to a cursor, for which the Rust has no call, beside the writing of the records that are walked over.
use crate::palgwern::{Axis, Panel, RECORD_WORDS};
use crate::table;
use crate::timing::pair;
use std::hint::black_box;

/// Explicit tracks, and implicit ones on each side: 3, 301 and 60,001 records.
const AXES: [(usize, usize); 3] = [(1, 0), (50, 50), (10_000, 10_000)];

/// Tracks and gaps of one pixel each.
fn sheet(explicit: usize, implicit: usize) -> String {
    let size = "len\t3f800000\tlen\t3f800000";
    format!(
        "axis\tc\t477fff00\tmax\tlen\t3f800000\nrepeat\tc\t{explicit}\ntrack\tc\t{size}\nend\tc\nspare\tc\t{size}\n\
         extra\tc\t{implicit}\t{implicit}\n"
    )
}

pub(crate) fn print() {
    println!("| Records | Nearest line | ns a record | the records written |");
    println!("|---|---|---|---|");
    for (explicit, implicit) in AXES {
        let panel = Panel::read(sheet(explicit, implicit).as_bytes()).unwrap_or_else(|refusal| panic!("{refusal}"));
        let count = panel.record_count(Axis::Columns);
        let mut records = vec![0; count * RECORD_WORDS];
        let (nearest, written) = pair(
            || panel.nearest_line(black_box(Axis::Columns), black_box(100.5)),
            || panel.write_records(black_box(Axis::Columns), panel.items(Axis::Columns), 0, black_box(&mut records)),
        );
        let each = table::number(nearest / count as f64);
        println!("| {} | {} | {each} | {} |", table::grouped(count), table::time(nearest), table::time(written));
    }
}
