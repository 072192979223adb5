//! The batch: for each sheet with its entry calls, or only displayed, the library's whole answer.
use crate::answer::{print_answers, print_pair, print_refusal};
use crate::blocks::{bytes, calls, head, questions, Call};
use crate::calls::{display_sheet, enter_name, read_sheet, Numbers};
use crate::histories::print_acts;
use crate::lent::{Lent, TEXT};
use crate::palgwern::{Display, Panel, Room, State};
use crate::questions::print_questions;
use std::io::{BufRead, Write};

/// Asks once more on buffers of a known content: the answer, after a line `changed` where a refused sheet doesn't leave everything
/// lent as it was.
fn asked_again<A>(out: &mut Vec<u8>, lent: &mut Lent, sheet: &[u8], call: impl Fn(&mut Lent) -> A) -> A {
    lent.bytes[TEXT].fill_with(sheet);
    let before = lent.clone();
    let answer = call(lent);
    if *lent != before {
        out.extend_from_slice(b"changed\n");
    }
    answer
}

fn print_call(out: &mut Vec<u8>, panel: &mut Panel, (axis, line, name): &Call) {
    match panel.enter(*axis, *line, name) {
        Ok(()) => out.extend_from_slice(b"entered\t0\t0\n"),
        Err(refusal) => print_refusal(out, refusal),
    }
}

/// The same sheet and calls on lent buffers, for questions.
fn lend_panel(lent: &mut Lent, sheet: &[u8], calls: &[Call]) -> State {
    lent.bytes[TEXT].fill_with(sheet);
    let mut state = read_sheet(lent).panel;
    for (axis, line, name) in calls {
        lent.bytes[TEXT].fill_with(name);
        state = enter_name(lent, state, Numbers { axis: *axis as u32, line: *line, place: 0 }).panel;
    }
    state
}

/// A sheet, calls and questions on a panel that still holds the sheet before.
fn answer(panel: &mut Panel, lent: &mut Lent, sheet: &[u8], calls: &[Call], questions: &[String]) -> Vec<u8> {
    let mut out = Vec::new();
    if let Err(refusal) = panel.read_again(sheet) {
        print_refusal(&mut out, refusal);
        asked_again(&mut out, lent, sheet, read_sheet);
        print_pair(&mut out, refusal.pair);
        return out;
    }
    calls.iter().for_each(|call| print_call(&mut out, panel, call));
    print_answers(&mut out, panel, None);
    let state = lend_panel(lent, sheet, calls);
    print_questions(&mut out, lent, state, questions);
    out
}

/// A sheet and questions that are only displayed.
fn displayed(lent: &mut Lent, sheet: &[u8], questions: &[String]) -> Vec<u8> {
    let mut out = Vec::new();
    match Display::read(sheet) {
        Err(refusal) => {
            print_refusal(&mut out, refusal);
            asked_again(&mut out, lent, sheet, display_sheet);
            print_pair(&mut out, refusal.pair);
        }
        Ok(display) => {
            print_answers(&mut out, &display, display.overlap());
            lent.bytes[TEXT].fill_with(sheet);
            // Nothing can be entered, so nothing is tried.
            let state = State { grid: display_sheet(lent).grid, room: Room::default() };
            print_questions(&mut out, lent, state, questions);
        }
    }
    out
}

/// A sheet, its entry calls and questions, read or only displayed.
fn asked(input: &mut impl BufRead, panel: &mut Panel, lent: &mut Lent, word: &str, bytes_of_sheet: usize) -> Vec<u8> {
    let sheet = bytes(input, bytes_of_sheet);
    let (calls, questions) = (calls(input), questions(input));
    match word {
        "sheet" => answer(panel, lent, &sheet, &calls, &questions),
        "display" => displayed(lent, &sheet, &questions),
        _ => panic!("another head is due"),
    }
}

/// For each block `sheet ..` or `display ..`, or `bytes ..` for a history, an `answer BYTES` and the answer. What is in them is for others to
/// judge: 0 faults.
pub fn run(mut input: impl BufRead, mut output: impl Write) -> u64 {
    let mut panel = Panel::empty();
    let mut lent = Lent::filled(0xa5);
    while let Some((word, count)) = head(&mut input) {
        let count = count.parse().expect("a number");
        let text = match word.as_str() {
            "bytes" => print_acts(&mut input, count),
            _ => asked(&mut input, &mut panel, &mut lent, &word, count),
        };
        writeln!(output, "answer {}", text.len()).unwrap();
        output.write_all(&text).unwrap();
        output.flush().unwrap();
    }
    0
}
