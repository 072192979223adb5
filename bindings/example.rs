//! Reads document 01's worked case and prints its answer.
use palgwern::{Axis, End, Panel, Record, Refusal, Size, Source};

const SHEET: &str = "axis\tc\t43480000\tmax\tlen\t00000000
repeat\tc\tfill
name\tc\tx
track\tc\tlen\t42c80000\tlen\t42c80000
end\tc
place\tc\tnamed\tx\t2\tauto\t-\t0
";

fn letter(axis: Axis) -> char {
    match axis {
        Axis::Columns => 'c',
        Axis::Rows => 'r',
    }
}

/// The kind and the bits of a size.
fn size(size: Size) -> String {
    let (kind, value) = match size {
        Size::Length(v) => ("len", v),
        Size::Percent(v) => ("pct", v),
        Size::Fraction(v) => ("fr", v),
        Size::Auto => ("auto", 0.0),
        Size::MinContent => ("min", 0.0),
        Size::MaxContent => ("max", 0.0),
        Size::FitContentLength(v) => ("fitl", v),
        Size::FitContentPercent(v) => ("fitp", v),
    };
    format!("{kind}\t{:08x}", value.to_bits())
}

fn source(source: Source) -> char {
    match source {
        Source::Negative => 'n',
        Source::Template => 't',
        Source::Automatic => 'a',
        Source::Area => 'g',
        Source::Positive => 'p',
        Source::Gutter => '-',
    }
}

fn record(index: usize, r: &Record) -> String {
    let kind = if r.gutter { "gutter" } else { "track" };
    let collapsed = if r.collapsed { "y" } else { "n" };
    format!("{index}\t{kind}\t{collapsed}\t{}\t{}\t{}", size(r.minimum), size(r.maximum), source(r.source))
}

fn end(end: End) -> String {
    match end {
        End::Auto => "auto\t0".to_string(),
        End::Line(line) => format!("line\t{line}"),
        End::Span(span) => format!("span\t{span}"),
    }
}

fn print(sheet: &str) -> Result<(), Refusal> {
    let panel = Panel::read(sheet)?;
    for axis in [Axis::Columns, Axis::Rows] {
        let size = panel.size(axis);
        println!("size\t{}\t{}\t{}", letter(axis), size.repetitions, size.explicit);
        for (index, r) in panel.records(axis).enumerate() {
            println!("{}", record(index, &r));
        }
    }
    for p in panel.resolved() {
        println!("place\t{}\t{}\t{}", letter(p.axis), end(p.start), end(p.end));
    }
    Ok(())
}

fn main() {
    if let Err(r) = print(SHEET) {
        println!("refused\t{}\t{}", r.number(), r.line);
    }
}
