//! The tables, as text that can stand in a document.

/// What was measured of a stage: nanoseconds for all of its items.
pub(crate) struct Row {
    pub(crate) panel: &'static str,
    pub(crate) stage: &'static str,
    pub(crate) items: usize,
    pub(crate) ours: f64,
    pub(crate) theirs: f64,
}

impl Row {
    fn print(&self) {
        let (items, ours, theirs) = (self.items as f64, self.ours, self.theirs);
        let (each_ours, each_theirs) = (number(ours / items), number(theirs / items));
        let (stage, count, ratio) = (self.stage, grouped(self.items), number(ours / theirs));
        println!("| {} | {stage} | {count} | {} | {} | {each_ours} | {each_theirs} | {ratio} |", self.panel, time(ours), time(theirs));
    }
}

/// Three digits, no more.
pub(crate) fn number(value: f64) -> String {
    match value {
        v if v < 9.995 => format!("{v:.2}"),
        v if v < 99.95 => format!("{v:.1}"),
        v => format!("{v:.0}"),
    }
}

/// Nanoseconds in the unit that suits them.
pub(crate) fn time(nanoseconds: f64) -> String {
    match nanoseconds {
        t if t < 1e3 => format!("{} ns", number(t)),
        t if t < 1e6 => format!("{} µs", number(t / 1e3)),
        t => format!("{} ms", number(t / 1e6)),
    }
}

/// A count with a comma before each three digits.
pub(crate) fn grouped(count: usize) -> String {
    match count {
        c if c < 1000 => c.to_string(),
        c => format!("{},{:03}", grouped(c / 1000), c % 1000),
    }
}

pub(crate) fn print_stages(rows: &[Row]) {
    println!("| Panel | Stage | Items | Ours | the Rust | Ours, ns each | the Rust, ns each | Ratio |");
    println!("|---|---|---|---|---|---|---|---|");
    rows.iter().for_each(Row::print);
}

/// Ours against the Rust on a panel, over some stages together.
fn ratio(rows: &[Row], panel: &str, stages: &[&str]) -> f64 {
    let chosen = || rows.iter().filter(|row| row.panel == panel && stages.contains(&row.stage));
    chosen().map(|row| row.ours).sum::<f64>() / chosen().map(|row| row.theirs).sum::<f64>()
}

/// How the ratios grow: for each group of stages the ratio on each panel, and the greatest against the first.
pub(crate) fn print_growth(rows: &[Row], groups: &[(&str, Vec<&str>)], panels: &[&str]) {
    println!("| Ratio | {} | greatest against small |", panels.join(" | "));
    println!("|---|{}---|", "---|".repeat(panels.len()));
    for (name, stages) in groups {
        let ratios: Vec<f64> = panels.iter().map(|panel| ratio(rows, panel, stages)).collect();
        let greatest = ratios.iter().copied().fold(0.0, f64::max);
        let cells: Vec<String> = ratios.iter().map(|ratio| number(*ratio)).collect();
        println!("| {name} | {} | {} |", cells.join(" | "), number(greatest / ratios[0]));
    }
}
