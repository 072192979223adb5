//! Sheets to CSS and back, CSS to sheets and back, at random.
use crate::palgwern;
use crate::random::Maker;
use palgwern::{Axis, Panel};

const SHEETS: u64 = 400;

fn converted(command: &str, text: &str) -> String {
    let run = palgwern(&[command, "-"], text.as_bytes());
    assert_eq!(run.status, Some(0), "{command}: {}\n{text}", run.errors);
    run.output
}

#[test]
fn sheets_come_back() {
    for seed in 0..SHEETS {
        let sheet = Maker::new(seed, true).sheet();
        if Panel::read(sheet.as_bytes()).is_err() {
            continue;
        }
        let css = converted("to-css", &sheet);
        assert_eq!(converted("from-css", &css), sheet, "seed {seed}\n{css}");
        assert_eq!(converted("to-css", &converted("from-css", &css)), css, "seed {seed}");
    }
}

/// All that a panel answers.
fn answers(sheet: &str) -> String {
    let panel = Panel::read(sheet.as_bytes()).unwrap();
    let axes = [Axis::Columns, Axis::Rows].map(|axis| {
        let (names, records) = (panel.line_names(axis).collect::<Vec<_>>(), panel.records(axis).collect::<Vec<_>>());
        format!("{:?} {} {names:?} {records:?}", panel.size(axis), panel.lists(axis))
    });
    format!("{axes:?} {:?}", panel.resolved().collect::<Vec<_>>())
}

#[test]
fn mixed_lines_answer_alike() {
    for seed in 0..SHEETS / 4 {
        let lines = Maker::new(seed, true).lines();
        let late = lines.iter().filter(|line| {
            line.split('\t').nth(1) == Some("c") && !line.starts_with("axis") && !line.starts_with("area") && !line.starts_with("place")
        });
        let others = lines.iter().filter(|line| {
            line.split('\t').nth(1) != Some("c") || line.starts_with("axis") || line.starts_with("area") || line.starts_with("place")
        });
        let sheet: String = others.chain(late).map(|line| format!("{line}\n")).collect();
        if Panel::read(sheet.as_bytes()).is_err() {
            continue;
        }
        assert_eq!(answers(&converted("from-css", &converted("to-css", &sheet))), answers(&sheet), "seed {seed}");
    }
}

#[test]
fn css_as_people_write_it() {
    let css = "/* keys */ .panel { DISPLAY: grid; color: red; max-width: 4e2px; gap: 10px;\n grid-template-columns: [ a b ] repeat( 2 , 1FR [c] ) minmax(0, .5fr) fit-content(25%); grid-template-areas: 'k k ...' }\n.k { grid-area: k }";
    let run = palgwern(&["from-css", "-"], css.as_bytes());
    assert_eq!((run.status, run.errors.as_str()), (Some(1), "-: line 3: a sheet can't say grid-area\n"));
    let css = css.replace("grid-area: k", "grid-column: k; grid-row: span c 2 / -1; margin: 0 auto");
    let sheet = "axis\tc\t43c80000\tmax\tlen\t41200000\naxis\tr\t-\tmax\tlen\t41200000\narea\tk\t1\t2\t1\t3\nname\tc\ta\nname\tc\tb\nrepeat\tc\t2\ntrack\tc\tauto\t00000000\tfr\t3f800000\nname\tc\tc\nend\tc\ntrack\tc\tlen\t00000000\tfr\t3f000000\ntrack\tc\tauto\t00000000\tfitp\t3e800000\nplace\tc\tnamed\tk\t0\tnamed\tk\t0\nplace\tr\tnspan\tc\t2\tline\t-\t-1\n";
    assert_eq!(converted("from-css", &css), sheet);
}

/// A picture is written by rows where dots make the grid larger than areas and tracks do, else by areas.
#[test]
fn pictures() {
    let (dots, covered) = ("grid-template-areas: 'a . .' '... ... ...'", "grid-template-areas: 'a .' 'a b'");
    assert_eq!(converted("from-css", dots), "row\ta\t.\t.\nrow\t...\t...\t...\n");
    assert_eq!(converted("from-css", covered), "area\ta\t1\t3\t1\t2\narea\tb\t2\t3\t2\t3\n");
    for sheet in ["row\ta\t.\t.\nrow\t...\t...\t...\n", "row\t.\n", "row\tb\ta\nrow\t.\ta\nplace\tc\tnamed\ta\t0\tauto\t-\t0\n"] {
        assert_eq!(answers(&converted("from-css", &converted("to-css", sheet))), answers(sheet), "{sheet}");
    }
    assert!(converted("to-css", "row\ta\t.\nrow\ta\t...\n").contains("grid-template-areas:\n    \"a .\"\n    \"a ...\";"));
}

#[test]
fn what_a_sheet_cannot_say() {
    let refused = [
        ("grid-template-columns: subgrid", "line 1: grid-template-columns: a sheet can't say 'subgrid' as a size"),
        ("grid-template-columns: calc(1px + 1%)", "line 1: grid-template-columns: a sheet can't say calc(..) as a track size"),
        ("grid-template-columns: repeat(2, 10px", "line 1: grid-template-columns: the end stands where a size is expected"),
        ("grid-template-columns: 10em", "line 1: grid-template-columns: a sheet can't say 10em; px, % and fr are its units"),
        ("grid-template-columns: [span] 10px", "line 1: grid-template-columns: 'span' is a word of CSS and no name"),
        ("grid-template-columns: minmax(1fr, 2fr)", "line 1: grid-template-columns: fr is no minimum in CSS"),
        ("grid-auto-flow: dense", "line 1: a sheet can't say grid-auto-flow"),
        ("width: 50%", "line 1: width: an inner size is a length in px"),
        ("width: 10px; min-width: 5px", "line 1: min-width: a sheet has one size for an axis, and one stands before it"),
        ("display: flex", "line 1: display: a panel is a grid"),
        ("grid-template-areas: 'a b' 'b a'", "line 1: grid-template-areas: the cells of 'a' are no filled rectangle"),
        ("grid-template-areas: 'a b' 'a'", "line 1: grid-template-areas: every row has the same number of cells, one or more"),
        (".a { grid-column: 0 }", "line 1: grid-column: 0 is no line and no span in CSS"),
        (".a { grid-column: span -1 }", "line 1: grid-column: a span has no negative number"),
        (".a { display: grid } .b { gap: 1px }", "line 1: a sheet has one grid, and this rule is a second one"),
        ("@media print { }", "line 1: rules that begin with @ are not read"),
        ("width: 70000px", "the sheet would be refused, at its line 1: refused by 3 (value): field 3, the inner size: '4788b800' is 70000: 0 to 65,535 is expected"),
    ];
    for (css, words) in refused {
        let run = palgwern(&["from-css", "-"], css.as_bytes());
        assert_eq!((run.status, run.errors), (Some(1), format!("-: {words}\n")), "{css}");
    }
}

#[test]
fn what_css_cannot_say() {
    let refused = [
        ("place\tc\tline\t-\t0\tauto\t-\t0\n", "line 1: CSS has no line 0"),
        ("place\tc\tspan\t-\t0\tauto\t-\t0\n", "line 1: CSS has no span of 0"),
        ("name\tc\tAuto\n", "line 1: 'Auto' is a word of CSS and no name of a line"),
        ("track\tc\tlen\t3f800000\tfitl\t3f800000\n", "line 1: CSS has no minimum but auto beside fit-content"),
        ("area\ta!\t1\t2\t1\t2\n", "line 1: a picture of areas can't hold the name 'a!': letters, digits, '-' and '_'"),
        ("row\t.\ta\nrow\ta!\ta\n", "line 2: a picture of areas can't hold the name 'a!': letters, digits, '-' and '_'"),
        ("area\ta\t1\t10001\t1\t10001\n", "line 1: a picture of 10000 rows of 10000 cells is too large to write"),
    ];
    for (sheet, words) in refused {
        let run = palgwern(&["to-css", "-"], sheet.as_bytes());
        assert_eq!((run.status, run.errors), (Some(1), format!("-: {words}\n")), "{sheet}");
    }
}

/// Texts that are no CSS, or damaged CSS, are converted or refused.
#[test]
fn damaged_css() {
    let css = std::fs::read(crate::beside("../examples/keys.css")).unwrap();
    let mut random = crate::random::Random::new(3);
    for _ in 0..SHEETS {
        let mut text = css.clone();
        for _ in 0..1 + random.below(4) {
            let (at, byte) = (random.below(text.len()), b"{}[]();:'\"\\/*-.,0e%@ax\n\xff"[random.below(24)]);
            match random.below(3) {
                0 => text[at] = byte,
                1 => text.insert(at, byte),
                _ => text.truncate(at + 1),
            }
        }
        let run = palgwern(&["from-css", "-"], &text);
        assert!(matches!(run.status, Some(0 | 1)), "{:?} {}\n{}", run.status, run.errors, String::from_utf8_lossy(&text));
    }
}
