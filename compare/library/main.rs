//! Asks the static library libpalgwern.a: sheets with entry calls in a batch, or forged panels.
//! `library --batch`, `library --forge LISTS N SEED`, `library --planted LISTS N SEED`.
mod answer;
mod batch;
mod blocks;
mod calls;
mod cells;
mod chance;
mod cursor;
mod forge;
mod forging;
mod histories;
mod lent;
#[path = "../../bindings/palgwern.rs"]
mod palgwern;
mod planted;
mod promises;
mod questions;
mod runs;
mod trials;

fn number(word: &str) -> u64 {
    word.parse().expect("a number")
}

fn main() {
    let words: Vec<String> = std::env::args().skip(1).collect();
    let words: Vec<&str> = words.iter().map(String::as_str).collect();
    let faults = match words[..] {
        ["--batch"] => batch::run(std::io::stdin().lock(), std::io::BufWriter::new(std::io::stdout().lock())),
        ["--forge", lists, count, seed] => forge::run(lists, number(count), number(seed)),
        ["--planted", lists, count, seed] => forge::run_planted(lists, number(count), number(seed)),
        _ => panic!("library --batch, --forge LISTS N SEED or --planted LISTS N SEED"),
    };
    std::process::exit(if faults == 0 { 0 } else { 1 });
}
