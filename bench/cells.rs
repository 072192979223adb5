//! Where cells land, by either packing, for which the Rust has no call on a panel.
use crate::palgwern::{Packing, Panel};
use crate::table;
use crate::timing::pair;
use std::hint::black_box;

const COLUMN: &str = "track\tc\tauto\t00000000\tauto\t00000000\n";
const FREE: &str = "\tauto\t-\t0\tauto\t-\t0";

/// Cells over so many columns, each as it says, anywhere in the rows.
fn cells(columns: usize, cells: impl Iterator<Item = String>) -> String {
    COLUMN.repeat(columns) + &cells.collect::<String>()
}

/// A name, the number of cells, and the sheet: one track each; two columns each beside posts of rising height; and between such posts,
/// which leave one column free.
fn panels() -> [(&'static str, usize, String); 4] {
    let one = |_| format!("cell{FREE}{FREE}\n");
    let post = |at: usize| format!("cell\tline\t-\t{}\tauto\t-\t0\tline\t-\t1\tspan\t-\t{}\n", at % 64 + 1, at / 4 + 1);
    let between = |at: usize| format!("cell\tline\t-\t{}\tauto\t-\t0\tline\t-\t1\tline\t-\t{}\n", 2 * at + 2, at + 2);
    let wide = |_| format!("cell\tspan\t-\t2\tauto\t-\t0{FREE}\n");
    [
        ("16 in 4 columns", 16, cells(4, (0..16).map(one))),
        ("256 in 16 columns", 256, cells(16, (0..256).map(one))),
        ("64 beside 64 posts", 128, cells(64, (0..64).map(post).chain((0..64).map(wide)))),
        ("128 between 128 posts", 256, format!("area\ta\t1\t2\t1\t258\n{}", cells(0, (0..128).map(between).chain((0..128).map(wide))))),
    ]
}

pub(crate) fn print() {
    println!("| Cells | Sparse | ns a cell | Dense | ns a cell |");
    println!("|---|---|---|---|---|");
    for (name, count, sheet) in panels() {
        let panel = Panel::read(sheet.as_bytes()).unwrap_or_else(|refusal| panic!("{refusal}"));
        let placed = [Packing::Sparse, Packing::Dense].map(|packing| panel.place_cells(packing).unwrap_or_else(|refusal| panic!("{refusal}")).len());
        assert_eq!(placed, [count; 2]);
        let (sparse, dense) = pair(|| panel.place_cells(black_box(Packing::Sparse)), || panel.place_cells(black_box(Packing::Dense)));
        let each = |time: f64| table::number(time / count as f64);
        println!("| {name} | {} | {} | {} | {} |", table::time(sparse), each(sparse), table::time(dense), each(dense));
    }
}
