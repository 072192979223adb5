//! `palgwern show`: a panel, or two side by side, as an SVG picture.
use crate::answer::Answer;
use crate::facts::{self, Difference};
use crate::labels::{width, wrapped, LETTER, TEXT};
use crate::picture::Picture;
use crate::sheet::AXES;
use crate::style::STYLE;
use crate::svg::{coordinate, Svg};
use crate::text::counted;
use crate::warnings;
use palgwern::{Record, Size, Source};
use std::collections::HashSet;

/// The most warnings and differences that are listed.
const LISTED: usize = 24;
const EDGE: f64 = 16.0;
const BESIDE: f64 = 24.0;
/// Two panels that are wider together stand one above the other.
const WIDEST: f64 = 2_400.0;

/// A panel that is drawn: its SVG and its size.
struct Part {
    text: String,
    width: f64,
    height: f64,
}

/// The picture of one panel, or of two; each with what it is called.
pub fn picture(panels: &[(String, Answer)]) -> String {
    let differences = match panels {
        [(_, before), (_, after)] => facts::differences(&facts::of(before), &facts::of(after)),
        _ => vec![],
    };
    let keys: HashSet<String> = differences.iter().map(|one| one.key.clone()).collect();
    let parts: Vec<Part> = panels.iter().map(|(name, answer)| part(name, answer, keys.clone())).collect();
    let beside = parts.iter().map(|part| part.width).sum::<f64>() + BESIDE * (parts.len() - 1) as f64;
    let stacked = beside > WIDEST;
    let (widest, tallest) =
        (parts.iter().map(|part| part.width).fold(0.0, f64::max), parts.iter().map(|part| part.height).fold(0.0, f64::max));
    let (across, tall) = if stacked { (widest, parts.iter().map(|part| part.height + BESIDE).sum()) } else { (beside, tallest) };
    let lines = if panels.len() == 2 { difference_lines(&differences, across) } else { vec![] };
    let size = (across.max(lines.iter().map(|line| width(line) + 2.0 * EDGE).fold(0.0, f64::max)), tall + lines.len() as f64 * TEXT + EDGE);
    let mut svg = opened(size);
    let mut at = (0.0, 0.0);
    for part in &parts {
        svg.open("g", &[("class", "panel".to_string()), ("transform", format!("translate({} {})", coordinate(at.0), coordinate(at.1)))]);
        svg.raw(&part.text);
        svg.close();
        at = if stacked { (0.0, at.1 + part.height + BESIDE) } else { (at.0 + part.width + BESIDE, 0.0) };
    }
    text_lines(&mut svg, "mark", &lines, tall + TEXT);
    svg.finished()
}

/// The beginning of a picture of this size.
fn opened((across, tall): (f64, f64)) -> Svg {
    let (across, tall) = (coordinate(across.ceil()), coordinate(tall.ceil()));
    let mut svg = Svg::default();
    svg.open(
        "svg",
        &[
            ("xmlns", "http://www.w3.org/2000/svg".to_string()),
            ("width", across.clone()),
            ("height", tall.clone()),
            ("viewBox", format!("0 0 {across} {tall}")),
        ],
    );
    svg.raw(STYLE);
    svg.element("rect", &[("class", "paper".to_string()), ("width", across), ("height", tall)]);
    svg
}

/// One panel with its warnings and what its colours mean.
fn part(name: &str, answer: &Answer, differs: HashSet<String>) -> Part {
    let mut picture = Picture::new(answer, differs);
    let [columns, rows] = AXES.map(|axis| answer.axis(axis).records.len() / 2);
    let heading = format!("{name}: {}, {}", counted(columns, "column"), counted(rows, "row"));
    let (across, tall) = picture.draw(&heading);
    let (mut across, mut tall) = (across.max(420.0), tall + TEXT);
    let swatches = swatches(answer);
    across = across.max(swatch_width(&swatches));
    draw_swatches(&mut picture.svg, &swatches, tall);
    tall += TEXT + 8.0;
    let letters = ((across - 2.0 * EDGE) / LETTER) as usize;
    let found = warnings::of(answer);
    let mut lines: Vec<String> = found.iter().take(LISTED).flat_map(|warning| wrapped(&warning.text(), letters)).collect();
    if found.len() > LISTED {
        lines.push(format!("and {}", counted(found.len() - LISTED, "warning")));
    }
    text_lines(&mut picture.svg, "alert", &lines, tall);
    tall += lines.len() as f64 * TEXT;
    Part { text: std::mem::take(&mut picture.svg).finished(), width: across, height: tall }
}

fn text_lines(svg: &mut Svg, class: &str, lines: &[String], from: f64) {
    for (at, line) in lines.iter().enumerate() {
        let y = from + at as f64 * TEXT;
        let attributes =
            [("class", class.to_string()), ("x", coordinate(EDGE)), ("y", coordinate(y)), ("xml:space", "preserve".to_string())];
        svg.words("text", &attributes, line);
    }
}

/// The colours that occur, with what they mean.
fn swatches(answer: &Answer) -> Vec<(String, &'static str)> {
    let records = || answer.axes.iter().flat_map(|axis| &axis.records);
    let sources = [Source::Template, Source::Automatic, Source::Area, Source::Negative, Source::Positive];
    let mut found: Vec<(String, &'static str)> = sources
        .into_iter()
        .filter(|source| records().any(|record| record.source == *source))
        .map(|source| (format!("track {}", facts::source(source).0), facts::source(source).1))
        .collect();
    found.extend(
        records()
            .any(|record| record.gutter && !record.collapsed && record.minimum != Size::Length(0.0))
            .then(|| ("gutter".to_string(), "gutter")),
    );
    found.extend(records().any(|record| !record.gutter && record.collapsed).then(|| ("shut".to_string(), "collapsed")));
    found.extend(
        (!answer.axes.iter().all(|axis| axis.records.iter().all(is_plain)))
            .then(|| ("track part".to_string(), "broken edge: no definite size")),
    );
    found
}

/// Whether a record has a length or a percentage as its maximum.
fn is_plain(record: &Record) -> bool {
    record.gutter || crate::values::is_fixed(record.maximum)
}

fn swatch_width(swatches: &[(String, &str)]) -> f64 {
    2.0 * EDGE + swatches.iter().map(|(_, words)| width(words) + 30.0).sum::<f64>()
}

fn draw_swatches(svg: &mut Svg, swatches: &[(String, &str)], y: f64) {
    let mut x = EDGE;
    for (class, words) in swatches {
        svg.open("g", &[("class", class.clone())]);
        let attributes = [("x", x), ("y", y - 10.0), ("width", 14.0), ("height", 12.0)].map(|(name, value)| (name, coordinate(value)));
        svg.element(
            "rect",
            &[&[("class", format!("band {}", if class.starts_with("track") { "" } else { class }).trim().to_string())][..], &attributes]
                .concat(),
        );
        svg.words("text", &[("class", "soft".to_string()), ("x", coordinate(x + 19.0)), ("y", coordinate(y))], words);
        svg.close();
        x += width(words) + 30.0;
    }
}

/// What differs, in lines.
fn difference_lines(differences: &[Difference], across: f64) -> Vec<String> {
    if differences.is_empty() {
        return vec!["Nothing differs.".to_string()];
    }
    let letters = ((across - 2.0 * EDGE) / LETTER) as usize;
    let mut lines = vec![format!("{}:", counted(differences.len(), "difference"))];
    lines.extend(
        differences.iter().take(LISTED).flat_map(|one| wrapped(&format!("{}: {}; then {}", one.key, one.before, one.after), letters)),
    );
    if differences.len() > LISTED {
        lines.push(format!("and {} more", differences.len() - LISTED));
    }
    lines
}
