//! Edits through a history and recalls of its steps, beside reading the sheet.
use crate::palgwern::{raw, History, State, PANEL_BYTES, PANEL_WORDS, STORE_BYTES};
use crate::panels::{self, Sheet};
use crate::table;
use crate::timing::pair;
use std::hint::black_box;

/// An edit of each kind, for every panel.
const EDITS: [(&str, &str); 4] = [
    ("area", "area\tq\t9\t10\t1\t2"), ("track", "track\tc\tlen\t40800000\tlen\t40800000"), ("placement", "place\tc\tnamed\tn0000\t1\tauto\t-\t0"),
    ("name", "enter\tc\t2\tn0000"),
];
/// How many steps are recalled, and stand before an edit.
const STEPS: [u64; 3] = [1, 100, 1_000];
/// Bytes of a history: more than that of so many steps.
const BYTES: usize = 1 << 16;

/// All that the calls are lent: an edit is timed at the same step again and again.
struct Lent<'a> {
    sheet: &'a [u8],
    words: Box<[u64; PANEL_WORDS]>,
    bytes: Box<[u8; PANEL_BYTES]>,
    columns: Vec<u8>,
    rows: Vec<u8>,
    lines: Vec<u8>,
}

/// An array on the heap.
fn zeroed<T: Copy + Default, const N: usize>() -> Box<[T; N]> {
    vec![T::default(); N].into_boxed_slice().try_into().ok().unwrap()
}

/// The steps after a call that has to be accepted.
fn accepted(answer: raw::EditAnswer) -> History {
    assert_eq!((answer.number, answer.line), (0, 0), "refused");
    answer.history
}

impl<'a> Lent<'a> {
    fn new(sheet: &'a Sheet) -> Lent<'a> {
        let store = || vec![0; STORE_BYTES];
        Lent { sheet: sheet.text.as_bytes(), words: zeroed(), bytes: zeroed(), columns: store(), rows: store(), lines: vec![0; BYTES] }
    }

    fn read(&mut self) -> u32 {
        // SAFETY: buffers of their own, each of the length that `palgwern.h` states.
        let answer = unsafe {
            raw::palgwern_read_sheet(
                black_box(self.sheet.as_ptr()), self.sheet.len(), &mut *self.words, &mut *self.bytes, self.columns.as_mut_ptr(),
                STORE_BYTES, self.rows.as_mut_ptr(), STORE_BYTES,
            )
        };
        assert_eq!(answer.number, 0, "refused");
        answer.panel.grid.placements
    }

    fn edit(&mut self, history: History, text: &str) -> History {
        // SAFETY: as above.
        accepted(unsafe {
            raw::palgwern_edit(
                black_box(self.sheet.as_ptr()), self.sheet.len(), State::default(), history, &mut *self.words, &mut *self.bytes,
                self.columns.as_mut_ptr(), STORE_BYTES, self.rows.as_mut_ptr(), STORE_BYTES, self.lines.as_mut_ptr(), BYTES,
                text.as_ptr(), text.len(),
            )
        })
    }

    fn recall(&mut self, history: History, step: u64) -> History {
        // SAFETY: as above.
        accepted(unsafe {
            raw::palgwern_recall(
                black_box(self.sheet.as_ptr()), self.sheet.len(), State::default(), history, &mut *self.words, &mut *self.bytes,
                self.columns.as_mut_ptr(), STORE_BYTES, self.rows.as_mut_ptr(), STORE_BYTES, self.lines.as_ptr(), BYTES, step,
            )
        })
    }

    /// A history of so many names, with a placement after every tenth where they fit.
    fn steps(&mut self, count: u64) -> History {
        let mut placements = self.read();
        (0..count).fold(History::default(), |history, step| {
            let is_placement = step % 10 == 9 && placements < 256;
            placements += u32::from(is_placement);
            self.edit(history, EDITS[if is_placement { 2 } else { 3 }].1)
        })
    }
}

/// A time, and how many times as long as reading the sheet it is.
fn beside(time: f64, reading: f64) -> String {
    format!("{} ({})", table::time(time), table::number(time / reading))
}

fn print_edits(sheet: &Sheet) {
    let (mut lent, mut read) = (Lent::new(sheet), Lent::new(sheet));
    let times = EDITS.map(|(_, text)| pair(|| lent.edit(History::default(), text), || read.read()));
    let edits = times.map(|(edit, reading)| beside(edit, reading));
    println!("| {} | {} | {} |", sheet.panel, table::time(times[0].1), edits.join(" | "));
}

fn print_steps(sheet: &Sheet) {
    let (mut lent, mut read) = (Lent::new(sheet), Lent::new(sheet));
    for count in STEPS {
        let history = lent.steps(count);
        let (recall, reading) = pair(|| lent.recall(history, count), || read.read());
        let (edit, _) = pair(|| lent.edit(history, EDITS[3].1), || ());
        let each = if count == 1 { String::new() } else { table::number((recall - reading) / count as f64) };
        println!("| {} | {} | {} | {} | {each} |", sheet.panel, table::grouped(count as usize), beside(recall, reading), beside(edit, reading));
    }
}

/// A panel with every second of its placements, so that there is room for more.
fn with_room(sheet: &Sheet) -> Sheet {
    let is_kept = |(at, line): &(usize, &str)| at % 2 == 0 || !line.starts_with("place");
    Sheet { panel: sheet.panel, text: sheet.text.split_inclusive('\n').enumerate().filter(is_kept).map(|(_, line)| line).collect() }
}

/// The small panel, and the large one whose names leave room for more.
pub(crate) fn print() {
    let [small, _, _, large, _] = panels::all();
    let large = with_room(&large);
    println!("| Panel | Reading the sheet | An area | A track | A placement | A name |");
    println!("|---|---|---|---|---|---|");
    [&small, &large].into_iter().for_each(print_edits);
    println!();
    println!("| Panel | Steps | Recalled | An edit after them | Recalled above reading, ns a step |");
    println!("|---|---|---|---|---|");
    [&small, &large].into_iter().for_each(print_steps);
}
