//! The calls that edit a panel through a history and recall a step of it: acts of a batch, and what `palgwern.h` promises of each call.
use crate::answer::print_whole;
use crate::blocks::{bytes, head, number, part};
use crate::calls::{read_sheet, Numbers};
use crate::chance::Chance;
use crate::lent::*;
use crate::palgwern::{raw, Axis, History, Recorded, Refusal, State};
use crate::planted;
use crate::promises::{of_refusal, twice, Promises, Twice};
use std::io::{BufRead, Write};

/// The text is the edit.
fn edit(lent: &mut Lent, panel: State, history: History) -> raw::EditAnswer {
    let [held, columnstore, rowstore, text, _, sheet, lines] = &mut lent.bytes;
    let (columns, rows, lines) = (columnstore.content_mut(), rowstore.content_mut(), lines.content_mut());
    let (sheet, text) = (sheet.content(), text.content());
    // SAFETY: as in `calls::read_sheet`.
    let mut answer = unsafe {
        raw::palgwern_edit(
            sheet.as_ptr(), sheet.len(), panel, history, lent.words[PANEL].array_mut(), held.array_mut(), columns.as_mut_ptr(),
            columns.len(), rows.as_mut_ptr(), rows.len(), lines.as_mut_ptr(), lines.len(), text.as_ptr(), text.len(),
        )
    };
    planted::in_edit(lent, &mut answer);
    answer
}

/// The text is the name.
fn edit_name(lent: &mut Lent, panel: State, history: History, axis: u32, line: u32) -> raw::EditAnswer {
    let [held, columnstore, rowstore, text, _, sheet, lines] = &mut lent.bytes;
    let (columns, rows, lines) = (columnstore.content_mut(), rowstore.content_mut(), lines.content_mut());
    let (sheet, text, entry) = (sheet.content(), text.content(), raw::NameEdit { axis, line });
    // SAFETY: as above.
    let mut answer = unsafe {
        raw::palgwern_edit_name(
            sheet.as_ptr(), sheet.len(), panel, history, lent.words[PANEL].array_mut(), held.array_mut(), columns.as_mut_ptr(),
            columns.len(), rows.as_mut_ptr(), rows.len(), lines.as_mut_ptr(), lines.len(), entry, text.as_ptr(), text.len(),
        )
    };
    planted::in_edit(lent, &mut answer);
    answer
}

fn recall(lent: &mut Lent, panel: State, history: History, step: u64) -> raw::EditAnswer {
    let [held, columnstore, rowstore, _, _, sheet, lines] = &mut lent.bytes;
    let (columns, rows, sheet, lines) = (columnstore.content_mut(), rowstore.content_mut(), sheet.content(), lines.content());
    // SAFETY: as above; the lines are only read.
    let mut answer = unsafe {
        raw::palgwern_recall(
            sheet.as_ptr(), sheet.len(), panel, history, lent.words[PANEL].array_mut(), held.array_mut(), columns.as_mut_ptr(),
            columns.len(), rows.as_mut_ptr(), rows.len(), lines.as_ptr(), lines.len(), step,
        )
    };
    planted::in_recall(lent, &mut answer);
    answer
}

// Acts of a batch.

/// A panel that is edited on lent buffers, and one that owns them, as long as nothing is done that no call does.
struct Session {
    lent: Lent,
    panel: State,
    history: History,
    owned: Option<Recorded>,
}

/// One call on the buffers, and the same on the panel that owns them: the answer, after a line `changed` where a refusal changes anything,
/// or `alone` where the two differ.
fn print_call(
    out: &mut Vec<u8>, session: &mut Session, call: impl Fn(&mut Lent, State, History) -> raw::EditAnswer,
    owned: impl Fn(&mut Recorded) -> Result<(), Refusal>,
) {
    let before = session.lent.clone();
    let answer = call(&mut session.lent, session.panel, session.history);
    if answer.number != 0 && (session.lent != before || (answer.panel, answer.history) != (session.panel, session.history)) {
        out.extend_from_slice(b"changed\n");
    }
    (session.panel, session.history) = (answer.panel, answer.history);
    if let Some(owned_panel) = session.owned.as_mut().filter(|_| !session.lent.is_short()) {
        let (number, line) = owned(owned_panel).err().map_or((0, 0), |refusal| (refusal.number(), refusal.line));
        let steps = (owned_panel.step(), owned_panel.steps());
        if (number, line) != (answer.number, answer.line) || steps != (answer.history.step, answer.history.last) || owned_panel.state() != answer.panel {
            out.extend_from_slice(b"alone\n");
        }
    }
    if answer.number == 0 {
        return writeln!(out, "step\t{}\t{}", answer.history.step, answer.history.last).unwrap();
    }
    writeln!(out, "refused\t{}\t{}", answer.number, answer.line).unwrap();
    if answer.later != 0 {
        writeln!(out, "pair\t{}\t{}", answer.earlier, answer.later).unwrap();
    }
}

fn print_edit(out: &mut Vec<u8>, session: &mut Session, text: &[u8]) {
    session.lent.bytes[TEXT].fill_with(text);
    print_call(out, session, edit, |panel| panel.edit(text));
}

/// An entry in an axis by its letter; any other letter is no axis, which only the buffers are asked for.
fn print_edit_name(out: &mut Vec<u8>, session: &mut Session, letter: &str, line: u32, name: &[u8]) {
    let axis = ["c", "r"].iter().position(|&known| known == letter).unwrap_or(2) as u32;
    session.lent.bytes[TEXT].fill_with(name);
    let owned = |panel: &mut Recorded| match axis {
        0 => panel.edit_name(Axis::Columns, line, name),
        1 => panel.edit_name(Axis::Rows, line, name),
        _ if (1..=32).contains(&name.len()) && name.iter().all(|byte| (33..=126).contains(byte)) => panel.edit_name(Axis::Rows, 0, name),
        _ => panel.edit_name(Axis::Rows, 1, name),
    };
    print_call(out, session, |lent, panel, history| edit_name(lent, panel, history, axis, line), owned);
}

/// The whole answer of the panel, with records and empty lists of names or without.
fn print_shown(out: &mut Vec<u8>, session: &Session, cut: bool) {
    let mut whole = Vec::new();
    print_whole(&mut whole, session.owned.as_ref().expect("a panel that calls alone have edited"), None);
    let is_kept = |line: &&[u8]| !cut || !(line[0].is_ascii_digit() || line.starts_with(b"names") && line.split(|&byte| byte == b'\t').count() == 3);
    whole.split_inclusive(|&byte| byte == b'\n').filter(is_kept).for_each(|line| out.extend_from_slice(line));
}

/// What no call wrote: the panel that owns its buffers is no other's then.
fn forge(session: &mut Session, change: impl Fn(&mut Session)) {
    change(session);
    session.owned = None;
}

/// One act, its bytes read from the input.
fn print_act(out: &mut Vec<u8>, session: &mut Session, input: &mut impl BufRead) {
    let (word, rest) = head(input).expect("an act is due");
    let numbers = |at: usize| -> u64 { part(&rest, at).parse().expect("a number") };
    match word.as_str() {
        "edit" => print_edit(out, session, &bytes(input, numbers(0) as usize)),
        "enter" => print_edit_name(out, session, part(&rest, 1), numbers(2) as u32, &bytes(input, numbers(0) as usize)),
        "recall" => print_call(out, session, |lent, panel, history| recall(lent, panel, history, numbers(0)), |panel| panel.recall(numbers(0))),
        "lend" => {
            session.lent.bytes[COLUMN_STORE].resize(numbers(0) as usize, b'x');
            session.lent.bytes[ROW_STORE].resize(numbers(1) as usize, b'x');
        }
        "steps" => forge(session, |session| session.history = History { step: numbers(0), last: numbers(1) }),
        "put" => {
            let data = bytes(input, numbers(0) as usize);
            forge(session, |session| session.lent.bytes[LINES].content_mut()[numbers(1) as usize..][..data.len()].copy_from_slice(&data));
        }
        "show" | "cut" => print_shown(out, session, word == "cut"),
        "lines" => out.extend([session.lent.bytes[LINES].content(), b"\n"].concat()),
        _ => panic!("no such act"),
    }
}

/// A sheet and acts on its panel, with so many bytes of history: all answers. A sheet that is refused has a panel of zeros.
pub fn print_acts(input: &mut impl BufRead, size: usize) -> Vec<u8> {
    let count = number(input, "sheet").expect("a sheet is due");
    let sheet = bytes(input, count);
    let mut lent = Lent::filled(0xa5);
    lent.bytes[TEXT].fill_with(&sheet);
    lent.bytes[SHEET].fill_with(&sheet);
    lent.bytes[LINES].fill_with(&vec![b'Z'; size]);
    let panel = read_sheet(&mut lent).panel;
    let mut session = Session { lent, panel, history: History::default(), owned: Recorded::read(sheet, size).ok() };
    let (mut out, (word, rest)) = (Vec::new(), head(input).expect("acts are due"));
    assert_eq!(word, "acts", "another head is due");
    (0..part(&rest, 0).parse().expect("a number")).for_each(|_: u32| print_act(&mut out, &mut session, input));
    out
}

// What each call promises.

/// Numbers that a history call is made with, which lie where no such call is lent anything: step, last step, and the step to recall.
fn steps(lent: &Lent) -> (History, u64) {
    let words = lent.words[RUN].content();
    (History { step: words[0], last: words[1] }, words[2])
}

const EDITS: [&str; 10] = [
    "enter\tc\t1\ta", "enter\tr\t2\tx-end", "area\tq\t5\t6\t5\t7", "area\tv\t20\t21\t1\t2", "track\tc\tauto\t00000000\tauto\t00000000",
    "track\tr\tlen\t41200000\tlen\t41200000", "place\tc\tnamed\ta\t1\tauto\t-\t0", "place\tr\tline\t-\t-1\tspan\t-\t2", "enter\tc\t20001\ta", "name\tc\ta",
];

/// A sheet, a history of a few lines, mostly good ones, an edit, and numbers.
pub fn lend(chance: &mut Chance, lent: &mut Lent, sheet: &[u8]) {
    let count = chance.below(5) as u64;
    let mut lines: Vec<u8> = (1..=count).flat_map(|number| format!("{number}\t{}\n", EDITS[chance.below(8)]).into_bytes()).collect();
    lines.resize(lines.len() + chance.pick(&[0, 1, 15, 16, 60, 200]), chance.pick(&[0, b'Z', b'\n', b'1']));
    if chance.once_in(6) && !lines.is_empty() {
        let at = chance.below(lines.len());
        lines[at] = chance.next() as u8;
    }
    let step = if chance.once_in(8) { chance.word() } else { chance.below(count as usize + 1) as u64 };
    let last = if chance.once_in(8) { chance.word() } else { count };
    lent.bytes[SHEET].fill_with(sheet);
    lent.bytes[LINES].fill_with(&lines);
    lent.bytes[TEXT].fill_with(EDITS[chance.below(EDITS.len())].as_bytes());
    lent.words[RUN].fill_with(&[step, last, chance.below(count as usize + 2) as u64]);
}

/// What each of the calls may write: the panel's words and bytes, the stores, and its lines where they are lent so.
fn only_writes(lent: &Lent, after: &Lent, lines: bool) -> bool {
    let mut bytes: Vec<Part> = [PANEL, COLUMN_STORE, ROW_STORE].iter().map(|&at| (at, lent.bytes[at].whole())).collect();
    bytes.extend(lines.then(|| (LINES, lent.bytes[LINES].whole())));
    after.is_but_for(lent, &[(PANEL, lent.words[PANEL].whole())], &bytes)
}

/// The same on tables of zeros and full stores.
fn anew(lent: &Lent, call: impl Fn(&mut Lent) -> raw::EditAnswer) -> raw::EditAnswer {
    let mut other = Lent::filled(0);
    [TEXT, SHEET, LINES].iter().for_each(|&at| other.bytes[at].fill_with(lent.bytes[at].content()));
    call(&mut other)
}

/// The numbers of all refusals but 7, which no edit has, and which a sheet may have at a line, and 9, 11 and 15, which are of other calls.
const NUMBERS: [u32; 14] = [1, 2, 3, 4, 5, 6, 7, 8, 10, 12, 13, 14, 16, 17];

fn of_call(lent: &Lent, panel: State, lines: bool, call: impl Fn(&mut Lent) -> raw::EditAnswer) -> (raw::EditAnswer, Lent, Promises) {
    let Twice { answer, after, mut promises } = twice(lent, &call);
    let (other, history) = (anew(lent, &call), steps(lent).0);
    let same = (answer.number, answer.line, answer.earlier, answer.later) == (other.number, other.line, other.earlier, other.later);
    promises.extend(of_refusal(answer.number, &NUMBERS, (answer.panel, answer.history) == (panel, history), after.has_contents_of(lent)));
    promises.push(("what the tables held is nothing to an edit or a recall", lent.is_short() || same && (answer.number != 0 || answer.panel == other.panel)));
    promises.push(("an edit or a recall with a short store is refused", !lent.is_short() || answer.number != 0));
    promises.push(("a pair of areas stands beside 12 alone", (answer.number == 12) == (answer.later != 0) && (answer.later != 0) == (answer.earlier != 0)));
    promises.push(("a sheet and a text are only read", only_writes(lent, &after, lines)));
    (answer, after, promises)
}

/// How many bytes the lines of the first steps take, by their line feeds.
fn end_of(lines: &[u8], step: u64) -> usize {
    lines.split_inclusive(|&byte| byte == b'\n').take(step as usize).map(<[u8]>::len).sum()
}

/// An accepted edit is the next step: its line alone is written, and a recall of it gives the same panel.
fn of_edit(lent: &Lent, panel: State, text: &[u8], call: impl Fn(&mut Lent) -> raw::EditAnswer) -> (u32, Promises) {
    let (answer, after, mut promises) = of_call(lent, panel, true, call);
    if answer.number == 0 {
        let (history, held) = (steps(lent).0, lent.bytes[LINES].content());
        let start = end_of(held, history.step);
        let line = [format!("{}\t", answer.history.step).as_bytes(), text, b"\n"].concat();
        let written = [&held[..start], &line, &held[start + line.len()..]].concat();
        promises.push(("an edit is the next step, and the last", answer.history.step == history.step + 1 && answer.history.last == answer.history.step));
        promises.push(("an edit writes its line alone", after.bytes[LINES].content() == written));
        let mut again = after.clone();
        let recalled = recall(&mut again, State::default(), answer.history, answer.history.step);
        promises.push(("a step that is recalled is the panel of its edit", recalled == answer && again.has_contents_of(&after)));
    }
    (answer.number, promises)
}

pub fn edited(lent: &Lent, panel: State) -> (u32, Promises) {
    let (text, history) = (lent.bytes[TEXT].content().to_vec(), steps(lent).0);
    of_edit(lent, panel, &text, |lent| edit(lent, panel, history))
}

pub fn name_edited(lent: &Lent, panel: State, numbers: Numbers) -> (u32, Promises) {
    let (name, history) = (lent.bytes[TEXT].content(), steps(lent).0);
    let text = [format!("enter\t{}\t{}\t", ["c", "r"][(numbers.axis & 1) as usize], numbers.line).as_bytes(), name].concat();
    let (number, mut promises) = of_edit(lent, panel, &text, |lent| edit_name(lent, panel, history, numbers.axis, numbers.line));
    let is_name = (1..=32).contains(&name.len()) && name.iter().all(|byte| (33..=126).contains(byte));
    promises.push(("what is no name is refused by 2, and what is no axis by 4", if is_name { numbers.axis < 2 || number == 4 } else { number == 2 }));
    (number, promises)
}

pub fn recalled(lent: &Lent, panel: State) -> (u32, Promises) {
    let (history, step) = steps(lent);
    let (answer, _, mut promises) = of_call(lent, panel, false, |lent| recall(lent, panel, history, step));
    let expected = History { step, ..history };
    promises.push(("a recall is to its step, and the last one stays", answer.number != 0 || answer.history == expected));
    promises.push(("a step above the last is refused", answer.number != 0 || step <= history.last));
    (answer.number, promises)
}
