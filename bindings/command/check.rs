//! `palgwern check`: a sheet is accepted or refused, in words.
use crate::answer::Answer;
use crate::faults;
use crate::sheet::AXES;
use crate::text::counted;
use crate::warnings;

/// The lines to print of a sheet, and whether it is accepted.
pub fn report(sheet: &[u8]) -> (Vec<String>, bool) {
    match Answer::read(sheet) {
        Err(refusal) => (vec![faults::words(sheet, refusal)], false),
        Ok(Answer { unplaced: Some(refusal), .. }) => (vec![faults::words(sheet, refusal)], false),
        Ok(answer) => {
            let mut lines = vec![accepted(&answer)];
            lines.extend(warnings::of(&answer).iter().map(warnings::Warning::text));
            (lines, true)
        }
    }
}

/// What the panel has, in a line.
fn accepted(answer: &Answer) -> String {
    let [columns, rows] = AXES.map(|axis| answer.axis(axis).records.len() / 2);
    let cells = match answer.sheet.cells.len() {
        0 => String::new(),
        count => format!(", {}", counted(count, "cell")),
    };
    format!("accepted: {}, {}, {}{cells}", counted(columns, "column"), counted(rows, "row"), counted(answer.placements.len(), "placement"))
}
