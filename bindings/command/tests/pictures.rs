//! Pictures are well formed and hold every line, name, track, area and placement of the answer.
use crate::random::Maker;
use crate::xml::{read, Element};
use crate::{folder, palgwern};
use palgwern::{Axis, End, Panel, Record, Size, Source};

const SHEETS: u64 = 200;
const AXES: [(Axis, &str); 2] = [(Axis::Columns, "c"), (Axis::Rows, "r")];

/// The values of a kind of element, in order.
fn held(panel: &Element, class: &str, names: &[&str]) -> Vec<Vec<String>> {
    let found = panel.all().into_iter().filter(|one| one.tag == "g" && one.has_class(class) && one.attributes.contains_key(names[0]));
    found.map(|one| names.iter().map(|name| one.get(name).to_string()).collect()).collect()
}

fn strings(values: &[&dyn std::fmt::Display]) -> Vec<String> {
    values.iter().map(|value| value.to_string()).collect()
}

/// Every line with its numbers and names.
fn lines(panel: &Panel) -> Vec<Vec<String>> {
    let mut found = vec![];
    for (axis, letter) in AXES {
        let grid = if axis == Axis::Columns { panel.grid().columns } else { panel.grid().rows };
        let (negative, explicit, positive) =
            (grid.implicit.negative as i32, panel.size(axis).explicit as i32, grid.implicit.positive as i32);
        for place in -negative..=explicit + positive {
            let number = if place < 0 { place - explicit - 1 } else { place + 1 };
            let is_explicit = (0..=explicit).contains(&place);
            let back = if is_explicit { (place - explicit - 1).to_string() } else { String::new() };
            let names: Vec<&str> = panel.names(axis, (place + 1).max(0) as u32).collect();
            found.push(strings(&[&letter, &number, &back, &if is_explicit { names.join(" ") } else { String::new() }]));
        }
    }
    found
}

fn size(size: Size) -> String {
    let (kind, value) = match size {
        Size::Length(value) => ("len", value),
        Size::Percent(value) => ("pct", value),
        Size::Fraction(value) => ("fr", value),
        Size::Auto => ("auto", 0.0),
        Size::MinContent => ("min", 0.0),
        Size::MaxContent => ("max", 0.0),
        Size::FitContentLength(value) => ("fitl", value),
        Size::FitContentPercent(value) => ("fitp", value),
    };
    format!("{kind} {:08x}", value.to_bits())
}

fn track(letter: &str, at: usize, record: &Record) -> Vec<String> {
    let source = match record.source {
        Source::Negative => "n",
        Source::Template => "t",
        Source::Automatic => "a",
        Source::Area => "g",
        Source::Positive => "p",
        Source::Gutter => "-",
    };
    let collapsed = if record.collapsed { "y" } else { "n" };
    strings(&[&letter, &at, &source, &collapsed, &format!("{} {}", size(record.minimum), size(record.maximum))])
}

fn tracks(panel: &Panel) -> Vec<Vec<String>> {
    let of = |(axis, letter): (Axis, &str)| {
        let records = panel.records(axis);
        records.filter(|record| !record.gutter).enumerate().map(|(at, record)| track(letter, at, &record)).collect::<Vec<_>>()
    };
    AXES.into_iter().flat_map(of).collect()
}

fn end(end: End) -> String {
    match end {
        End::Auto => "auto".to_string(),
        End::Line(line) => format!("line {line}"),
        End::Span(span) => format!("span {span}"),
    }
}

/// Every placement with its line of the sheet, those of the columns first.
fn places(panel: &Panel, sheet: &str) -> Vec<Vec<String>> {
    let at: Vec<usize> = sheet.lines().enumerate().filter(|(_, line)| line.starts_with("place\t")).map(|(at, _)| at + 1).collect();
    let of = |(axis, letter): (Axis, &'static str)| {
        let pairs = at.iter().zip(panel.resolved()).filter(move |(_, placement)| placement.axis == axis);
        pairs.map(|(line, placement)| strings(&[line, &letter, &end(placement.start), &end(placement.end)])).collect::<Vec<_>>()
    };
    AXES.into_iter().flat_map(of).collect()
}

fn areas(sheet: &str) -> Vec<Vec<String>> {
    let of = |line: &str| {
        let fields: Vec<&str> = line.split('\t').collect();
        strings(&[&fields[1], &format!("{} {}", fields[2], fields[3]), &format!("{} {}", fields[4], fields[5])])
    };
    sheet.lines().filter(|line| line.starts_with("area\t")).map(of).collect()
}

/// A panel of a picture holds all that a sheet is answered by.
fn assert_holds(drawn: &Element, sheet: &str) {
    let panel = Panel::read(sheet.as_bytes()).unwrap();
    assert_eq!(held(drawn, "line", &["data-axis", "data-line", "data-back", "data-names"]), lines(&panel), "{sheet}");
    assert_eq!(held(drawn, "track", &["data-axis", "data-index", "data-source", "data-collapsed", "data-size"]), tracks(&panel), "{sheet}");
    assert_eq!(held(drawn, "area", &["data-name", "data-rows", "data-columns"]), areas(sheet), "{sheet}");
    assert_eq!(held(drawn, "place", &["data-line", "data-axis", "data-start", "data-end"]), places(&panel, sheet), "{sheet}");
    for one in drawn.all() {
        let numbers = ["x", "y", "x1", "x2", "y1", "y2", "width", "height"].map(|name| one.get(name).to_string());
        assert!(numbers.iter().all(|text| text.is_empty() || text.parse::<f64>().is_ok_and(f64::is_finite)), "{one:?}");
        assert!(!one.get("width").starts_with('-') && !one.get("height").starts_with('-'), "{sheet}{one:?}");
    }
}

fn panels(picture: &str) -> Vec<Element> {
    let svg = read(picture).unwrap();
    assert_eq!((svg.tag.as_str(), svg.get("xmlns")), ("svg", "http://www.w3.org/2000/svg"));
    svg.children.into_iter().filter(|one| one.has_class("panel")).collect()
}

fn sheets() -> Vec<String> {
    let mut sheets: Vec<String> = (0..SHEETS).map(|seed| Maker::new(seed + 7_000, false).sheet()).collect();
    let of = |times: usize| {
        format!("repeat\tc\t{times}\nname\tc\tx\ntrack\tc\tlen\t41200000\tlen\t41200000\nend\tc\nrepeat\tr\t{times}\ntrack\tr\tauto\t00000000\tauto\t00000000\nend\tr\n")
    };
    sheets.extend([String::new(), of(10), of(200), of(4000)]);
    sheets.retain(|sheet| Panel::read(sheet.as_bytes()).is_ok());
    assert!(sheets.len() > SHEETS as usize / 2);
    sheets
}

#[test]
fn everything_is_there() {
    for sheet in sheets() {
        let run = palgwern(&["show", "-"], sheet.as_bytes());
        assert_eq!(run.status, Some(0), "{sheet}");
        let drawn = panels(&run.output);
        assert_eq!(drawn.len(), 1);
        assert_holds(&drawn[0], &sheet);
    }
}

#[test]
fn two_side_by_side() {
    let folder = folder("pictures");
    for pair in sheets().chunks_exact(2).take(40) {
        let files = ["before", "after"].map(|name| folder.join(name).display().to_string());
        std::fs::write(&files[0], &pair[0]).unwrap();
        std::fs::write(&files[1], &pair[1]).unwrap();
        let run = palgwern(&["show", &files[0], &files[1]], b"");
        let drawn = panels(&run.output);
        assert_eq!((run.status, drawn.len()), (Some(0), 2));
        assert_holds(&drawn[0], &pair[0]);
        assert_holds(&drawn[1], &pair[1]);
    }
    let same = palgwern(&["show", "-", "/dev/null"], b"").output;
    assert!(same.contains("Nothing differs.") && !same.contains("line differs"));
}

/// The fault of bench four is marked: the name, the tracks and the placement that moved.
#[test]
fn what_differs_is_marked() {
    let folder = folder("pictures");
    let before = "axis\tc\t43a00000\tmax\tlen\t00000000\nrepeat\tc\tfill\ntrack\tc\tlen\t42c80000\tlen\t42c80000\nend\tc\nname\tc\toffset\ntrack\tc\tlen\t42a00000\tlen\t42a00000\nplace\tc\tnamed\toffset\t1\tauto\t-\t0\n";
    let files = ["key-before", "key-after"].map(|name| folder.join(name).display().to_string());
    std::fs::write(&files[0], before).unwrap();
    std::fs::write(&files[1], before.replace("len\t42a00000\tlen\t42a00000", "auto\t00000000\tauto\t00000000")).unwrap();
    let picture = palgwern(&["show", &files[0], &files[1]], b"").output;
    let differing: Vec<Vec<Vec<String>>> = panels(&picture).iter().map(|one| held(one, "differs", &["data-axis", "data-line"])).collect();
    assert!(differing[0].contains(&strings(&[&"c", &3])), "{differing:?}");
    assert!(
        picture.contains("column line 3: offset; then not there")
            && picture.contains("placement 1: column line 3 / auto; then column line 2 / auto")
    );
}

/// The areas of a picture are drawn with their edges, in the order of their first cells, each with the line of its first row.
#[test]
fn areas_of_a_picture_are_drawn() {
    let run = palgwern(&["show", "-"], b"row\tb\tb\ta\nrow\t.\t.\ta\n");
    let drawn = held(&panels(&run.output)[0], "area", &["data-name", "data-line", "data-rows", "data-columns"]);
    assert_eq!(drawn, [strings(&[&"b", &1, &"1 2", &"1 3"]), strings(&[&"a", &1, &"1 3", &"3 4"])]);
}

/// Areas that share a cell are drawn for display, and the refusal is said beside it.
#[test]
fn areas_that_share_a_cell_are_drawn() {
    let run = palgwern(&["show", "-"], b"area\tdial\t1\t3\t1\t3\narea\tscale\t2\t4\t2\t4\n");
    assert_eq!(run.status, Some(0));
    assert_eq!(run.errors, "-: line 2: refused by 12 (overlap): area 'scale' shares a cell with area 'dial' of line 1; drawn for display\n");
    assert!(run.output.contains(">dial<") && run.output.contains(">scale<"));
}
