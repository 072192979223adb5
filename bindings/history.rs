//! Store and Recall as on an instrument: keys edit a panel through its history, and an earlier panel is brought back.
use palgwern::{Axis, End, Recorded, Refusal, Word};

/// As many columns of 100 pixels as fit, each after a line `value`, and a reading from the first to the third.
const SHEET: &str = "axis\tc\t43a00000\tmax\tlen\t41200000\n\
                     repeat\tc\tfill\n\
                     name\tc\tvalue\n\
                     track\tc\tlen\t42c80000\tlen\t42c80000\n\
                     end\tc\n\
                     place\tc\tnamed\tvalue\t1\tnamed\tvalue\t3\n";

fn end(end: End) -> String {
    match end {
        End::Auto => "auto\t0".to_string(),
        End::Line(line) => format!("line\t{line}"),
        End::Span(span) => format!("span\t{span}"),
    }
}

/// The step after a key, the columns, and where the readouts are.
fn print_panel(key: &str, panel: &Recorded) {
    println!("{key}: step {} of {}, {} columns", panel.step(), panel.steps(), panel.size(Axis::Columns).explicit);
    for p in panel.resolved() {
        println!("place\t{}\t{}\t{}", if p.axis == Axis::Columns { 'c' } else { 'r' }, end(p.start), end(p.end));
    }
}

/// An edit by its line, or what it is refused by.
fn edit(panel: &mut Recorded, text: &str) {
    if let Err(r) = panel.edit(text) {
        println!("refused\t{}\t{}", r.number(), r.line);
    }
}

/// The lines of the history.
fn print_history(panel: &Recorded) {
    for line in panel.lines().split(|&byte| byte == b'\n').take(panel.steps() as usize) {
        println!("{}", String::from_utf8_lossy(line));
    }
}

fn main() -> Result<(), Refusal> {
    let mut panel = Recorded::read(SHEET, 256)?;
    print_panel("start", &panel);
    panel.edit_name(Axis::Columns, 2, "level")?;
    edit(&mut panel, "place\tc\tnamed\tlevel\t1\tauto\t-\t0");
    print_panel("Amplitude", &panel);
    let stored = panel.step(); // Store
    // A column as wide as its text beside a repeat that fills: CSS drops such a template, and no line `value` is left.
    edit(&mut panel, "track\tc\tauto\t00000000\tauto\t00000000");
    print_panel("Units", &panel);
    panel.recall(stored)?;
    print_panel("Recall", &panel);
    edit(&mut panel, "area\toutput\t1\t2\t1\t5");
    edit(&mut panel, "area\toffset\t1\t2\t3\t4");
    edit(&mut panel, "place\tr\tnamed\toutput\t0\tnamed\toutput\t0");
    print_panel("Output", &panel);
    if panel.recall(5).is_err_and(|refusal| refusal.word == Word::NoStep) {
        println!("no step 5");
    }
    print_history(&panel);
    Ok(())
}
