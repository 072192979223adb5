//! The panels, as sheets: one text for both sides. Every track is 4 wide and every gap 2, so a repeat fits as often as is wanted.
use std::ops::Range;

/// A panel: its name in the tables, and its sheet.
pub(crate) struct Sheet {
    pub(crate) panel: &'static str,
    pub(crate) text: String,
}

/// The bits of a size.
fn bits(size: usize) -> String {
    format!("{:08x}", (size as f32).to_bits())
}

/// An axis with room for so many tracks and the gaps between them.
fn axis(axis: char, tracks: usize) -> String {
    format!("axis\t{axis}\t{}\tmax\tlen\t{}\n", bits(6 * tracks - 2), bits(2))
}

/// Areas of one row and two columns, side by side.
fn areas(count: usize) -> String {
    (0..count).map(|i| format!("area\ta{i}\t1\t2\t{}\t{}\n", 2 * i + 1, 2 * i + 3)).collect()
}

fn name(number: usize) -> String {
    format!("n{number:04}")
}

/// So many tracks, with names spread over the lines before them.
fn tracks(axis: char, count: usize, names: Range<usize>) -> String {
    let before = |track: usize| names.start + track * names.len() / count;
    let maxima = [("len", bits(4)), ("fr", bits(1)), ("auto", bits(0))];
    let mut text = String::new();
    for track in 0..count {
        text.extend((before(track)..before(track + 1)).map(|number| format!("name\t{axis}\t{}\n", name(number))));
        let (kind, value) = &maxima[track % 3];
        text += &format!("track\t{axis}\tlen\t{}\t{kind}\t{value}\n", bits(4));
    }
    text
}

fn repeat(axis: char, count: &str, tracks: String) -> String {
    format!("repeat\t{axis}\t{count}\n{tracks}end\t{axis}\n")
}

/// One placement: a name or an area alone, a name from each side, a named span, a line beside a name.
fn placement(axis: char, at: usize, names: usize, areas: usize, lines: usize) -> String {
    let (first, second) = (name(at * 7 % names), name((at * 7 + 3) % names));
    let nth = at * 37 % lines + 1;
    match at % 5 {
        0 => format!("place\t{axis}\tnamed\t{first}\t0\tauto\t-\t0\n"),
        1 => format!("place\t{axis}\tnamed\t{first}\t{nth}\tnamed\t{second}\t-{nth}\n"),
        2 => format!("place\t{axis}\tnamed\t{first}\t{nth}\tnspan\t{second}\t1\n"),
        3 => format!("place\t{axis}\tline\t-\t{}\tnamed\t{second}\t{nth}\n", at + 1),
        _ => format!("place\t{axis}\tnamed\ta{0}\t0\tnamed\ta{0}\t0\n", at % areas),
    }
}

/// So many placements on columns, each name on so many lines.
fn placements(count: usize, names: usize, areas: usize, lines: usize) -> String {
    (0..count).map(|at| placement('c', at, names, areas, lines)).collect()
}

/// Placements on columns and rows by turns, each with so many names on one line each.
fn both_placements(count: usize, columns: usize, rows: usize, areas: usize) -> String {
    let axes = [('c', columns), ('r', rows)];
    (0..count).map(|at| placement(axes[at % 2].0, at, axes[at % 2].1, areas, 1)).collect()
}

/// 6 columns and 4 rows, 8 names, 6 placements.
fn small() -> String {
    let columns = tracks('c', 4, 0..4) + &repeat('c', "fill", tracks('c', 1, 4..5));
    axis('c', 6) + &axis('r', 4) + &areas(2) + &columns + &tracks('r', 4, 0..3) + &both_placements(6, 5, 3, 2)
}

/// 40 columns, the last four a fit of which two hold no item, and 20 rows, 60 names, 60 placements.
fn medium() -> String {
    let columns = tracks('c', 36, 0..39) + &repeat('c', "fit", tracks('c', 1, 39..40));
    let items = "item\tc\t36\nitem\tc\t38\n";
    let rows = tracks('r', 20, 0..20);
    axis('c', 40) + &axis('r', 20) + &areas(8) + &columns + items + &rows + &both_placements(60, 40, 20, 8)
}

/// 2,000 columns, 4,000 entries of 16 names, 256 placements.
fn large() -> String {
    axis('c', 2000) + &areas(8) + &repeat('c', "fill", tracks('c', 8, 0..16)) + &placements(256, 16, 8, 250)
}

/// 2,000 columns, 1,440 names on 120 of their lines, 256 placements.
fn distinct() -> String {
    let named: String = (0..4).map(|part| repeat('c', "1", tracks('c', 30, 360 * part..360 * (part + 1)))).collect();
    let unnamed = repeat('c', "fill", tracks('c', 10, 0..0));
    axis('c', 2000) + &areas(4) + &named + &unnamed + &placements(256, 1440, 4, 1)
}

/// 10,000 columns and as many implicit ones on each side.
fn records() -> String {
    let spares: String = (1..4).map(|size| format!("spare\tc\tlen\t{0}\tlen\t{0}\n", bits(size))).collect();
    axis('c', 10_000) + &repeat('c', "fill", tracks('c', 16, 0..0)) + &spares + "extra\tc\t10000\t10000\n"
}

/// 16 columns, two names on each of their lines, and 256 cells, every fourth from a named line on.
pub(crate) fn named_cells() -> Sheet {
    let free = "\tauto\t-\t0\tauto\t-\t0";
    let cell = |at: usize| match at % 4 {
        0 => format!("cell\tnamed\t{}\t1\tauto\t-\t0{free}\n", name(at / 4 % 16)),
        _ => format!("cell{free}{free}\n"),
    };
    Sheet { panel: "256 cells", text: tracks('c', 16, 0..32) + &(0..256).map(cell).collect::<String>() }
}

/// Forty lines: an axis, and names and tracks by turns.
pub(crate) fn forty_lines() -> Sheet {
    Sheet { panel: "40 lines", text: axis('c', 20) + &tracks('c', 19, 0..20) }
}

/// The longest sheet: 60 tracks, and as many names as go into 32,768 bytes, the last as long as the rest asks.
pub(crate) fn longest() -> Sheet {
    let count = (32_768 - axis('c', 60).len() - tracks('c', 60, 0..0).len()) / 13 - 1;
    let text = axis('c', 60) + &tracks('c', 60, 0..count);
    let last = "x".repeat(32_768 - text.len() - "name\tc\t\n".len());
    Sheet { panel: "32,768 bytes", text: format!("{text}name\tc\t{last}\n") }
}

/// The panels, from small to large.
pub(crate) fn all() -> [Sheet; 5] {
    [
        Sheet { panel: "small", text: small() },
        Sheet { panel: "medium", text: medium() },
        Sheet { panel: "large, 16 names", text: large() },
        Sheet { panel: "large, 1,440 names", text: distinct() },
        Sheet { panel: "60,001 records", text: records() },
    ]
}

/// A sheet without its `name` lines.
pub(crate) fn nameless(sheet: &str) -> String {
    sheet.split_inclusive('\n').filter(|line| !line.starts_with("name\t")).collect()
}
