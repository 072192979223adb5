//! A name that is tried, beside the same answers of a panel in which it is entered, and beside entering it in a copy and asking that.
use crate::palgwern::{Axis, Packing, Panel, CELLS, PLACEMENT_RUN};
use crate::panels::{self, Sheet};
use crate::table;
use crate::timing::pair;
use std::hint::black_box;

/// A name that the panels have, and a line for it.
const NAME: &[u8] = b"n0000";
const LINE: u32 = 2;

/// What an answer is written to.
struct Room {
    numbers: [i32; PLACEMENT_RUN],
    lands: [u64; CELLS],
}

impl Room {
    fn new() -> Room {
        Room { numbers: [0; PLACEMENT_RUN], lands: [0; CELLS] }
    }

    /// All placements, and where the cells land.
    fn answered(&mut self, panel: &Panel) {
        black_box(panel.write_placements(0, &mut self.numbers)).ok();
        black_box(panel.place_cells(Packing::Sparse)).ok();
    }

    fn tried(&mut self, panel: &Panel) {
        black_box(panel.write_trial(Axis::Columns, LINE, black_box(NAME), Packing::Sparse, &mut self.numbers, &mut self.lands)).ok();
    }

    fn copied(&mut self, panel: &Panel) {
        self.answered(&entered(panel));
    }
}

/// A copy in which the name is entered.
fn entered(panel: &Panel) -> Panel {
    let mut copy = panel.clone();
    copy.enter(Axis::Columns, LINE, black_box(NAME)).unwrap_or_else(|refusal| panic!("{refusal}"));
    copy
}

fn print_panel(sheet: &Sheet) {
    let panel = Panel::read(&sheet.text).unwrap_or_else(|refusal| panic!("{refusal}"));
    let named = entered(&panel);
    let (mut answers, mut trials, mut copies) = (Room::new(), Room::new(), Room::new());
    let tried = panel.try_name(Axis::Columns, LINE, NAME, Packing::Sparse).unwrap_or_else(|refusal| panic!("{refusal}"));
    assert!(named.resolved().eq(tried.placements) && named.place_cells(Packing::Sparse) == Ok(tried.lands));
    let (answered, tried) = pair(|| answers.answered(&named), || trials.tried(&panel));
    let (copied, _) = pair(|| copies.copied(&panel), || ());
    let (placements, cells) = (table::grouped(panel.placements() as usize), panel.grid().cells);
    let [answered, copied, tried, above] = [answered, copied, tried, tried - answered].map(table::time);
    println!("| {} | {placements} | {cells} | {answered} | {copied} | {tried} | {above} |", sheet.panel);
}

pub(crate) fn print() {
    let times = ["Placements and cells, the name entered", "Copied, entered, and the same", "Tried", "Tried above the first"];
    println!("| Panel | Placements | Cells | {} |", times.join(" | "));
    println!("|---|---|---|---|---|---|---|");
    panels::all().iter().chain([&panels::named_cells()]).filter(|sheet| sheet.panel != "60,001 records").for_each(print_panel);
}
