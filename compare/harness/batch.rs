//! The program: one sheet on standard input, or a batch of sheets with direct entries.
use crate::compute::grid::panel::{answer, conversions, Entry, Wanted};
use crate::geometry::AbsoluteAxis;
use std::io::{BufRead, Read, Write};
use std::panic::{catch_unwind, AssertUnwindSafe};

/// The answer, or the one line `panic` where a function panicked.
fn answer_or_panic(sheet: &str, entries: &[Entry], wanted: Wanted) -> String {
    catch_unwind(AssertUnwindSafe(|| answer(sheet, entries, wanted))).unwrap_or_else(|_| "panic\n".to_string())
}

/// An entry line: axis, line, name, parted by tabs.
fn entry(line: &str) -> Entry {
    let mut fields = line.splitn(3, '\t');
    let axis = match fields.next() {
        Some("c") => AbsoluteAxis::Horizontal,
        Some("r") => AbsoluteAxis::Vertical,
        _ => panic!("no such axis"),
    };
    let number = fields.next().unwrap().parse().unwrap();
    (axis, number, fields.next().unwrap().to_string())
}

/// The word and the number of a header line, `None` at the end of input.
fn header(input: &mut impl BufRead) -> Option<(String, usize)> {
    let mut line = String::new();
    if input.read_line(&mut line).unwrap() == 0 {
        return None;
    }
    let (word, number) = line.trim_end().split_once(' ').expect("a header is a word and a number");
    Some((word.to_string(), number.parse().expect("a header ends in a number")))
}

fn read_entries(input: &mut impl BufRead, count: usize) -> Vec<Entry> {
    let lines = input.lines().take(count);
    lines.map(|line| entry(&line.unwrap())).collect()
}

/// The rest of a block `sheet BYTES` or `crate BYTES`: the sheet, `enter COUNT` and the entries.
fn sheet_block(input: &mut impl BufRead, bytes: usize, unraised: bool) -> String {
    let mut sheet = vec![0; bytes];
    input.read_exact(&mut sheet).unwrap();
    let (_, count) = header(input).expect("the entries are due");
    let entries = read_entries(input, count);
    let sheet = String::from_utf8(sheet).unwrap();
    answer_or_panic(&sheet, &entries, Wanted { names: true, counts: true, unraised })
}

/// For each block `sheet ..`, `crate ..` or `lines EXPLICIT` an `answer BYTES` and the answer.
fn run_batch(mut input: impl BufRead, mut output: impl Write) {
    while let Some((word, number)) = header(&mut input) {
        let text = match word.as_str() {
            "sheet" => sheet_block(&mut input, number, false),
            "crate" => sheet_block(&mut input, number, true),
            "lines" => conversions(number as u16),
            _ => panic!("no such block"),
        };
        write!(output, "answer {}\n{}", text.len(), text).unwrap();
        output.flush().unwrap();
    }
}

/// One sheet; the entries are the lines of a file.
fn run_one(names: bool, entries: Option<&String>) {
    let mut sheet = String::new();
    std::io::stdin().read_to_string(&mut sheet).unwrap();
    let lines = entries.map_or(String::new(), |path| std::fs::read_to_string(path).unwrap());
    let entries: Vec<Entry> = lines.lines().map(entry).collect();
    print!("{}", answer_or_panic(&sheet, &entries, Wanted { names, counts: false, unraised: false }));
}

/// `--batch`, or `[--names] [--enter FILE]` for one sheet.
pub(crate) fn run(arguments: Vec<String>) {
    if arguments.iter().any(|word| word == "--batch") {
        return run_batch(std::io::stdin().lock(), std::io::BufWriter::new(std::io::stdout().lock()));
    }
    let names = arguments.iter().any(|word| word == "--names");
    let entries = arguments.iter().position(|word| word == "--enter").and_then(|at| arguments.get(at + 1));
    run_one(names, entries);
}
