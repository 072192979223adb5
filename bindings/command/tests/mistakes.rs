//! The list of mistakes, each with its words and its place: tests/mistakes.txt.
use crate::{palgwern, refusals};

const LIST: &str = include_str!("mistakes.txt");
/// Every word of a refusal that a sheet can get, and of a warning.
const WORDS: &[&str] = &[
    "by 1 (unread)",
    "by 2 (name)",
    "by 3 (value)",
    "by 4 (count)",
    "by 5 (area)",
    "by 6 (twice)",
    "by 7 (late)",
    "by 8 (crowded)",
    "by 12 (overlap)",
    "by 13 (unequal)",
    "by 14 (broken)",
    "by 15 (unplaced)",
    "warning (template)",
    "warning (name)",
    "warning (past)",
    "warning (held)",
    "warning (order)",
    "warning (fit)",
    "warning (area)",
    "warning (item)",
    "warning (zero)",
];

/// A mistake: its title, the sheet, and the lines that are printed of it.
struct Mistake {
    title: String,
    sheet: String,
    words: Vec<String>,
}

fn mistake(block: &str) -> Mistake {
    let (mut title, mut sheet, mut words, mut times, mut unended) = (String::new(), String::new(), vec![], 1, false);
    for line in block.split('\n') {
        if let Some(text) = line.strip_prefix("# ") {
            title = text.to_string();
        } else if let Some(count) = line.strip_prefix("! times ") {
            times = count.parse().unwrap();
        } else if line == "! unended" {
            unended = true;
        } else if let Some(text) = line.strip_prefix("= ") {
            words.push(text.to_string());
        } else {
            sheet += &format!("{line}\n");
        }
    }
    let mut sheet = sheet.repeat(times);
    sheet.truncate(sheet.len() - usize::from(unended));
    Mistake { title, sheet, words }
}

fn mistakes() -> Vec<Mistake> {
    LIST.split("----\n").filter(|block| !block.is_empty()).map(|block| mistake(block.strip_suffix('\n').unwrap_or(block))).collect()
}

#[test]
fn each_mistake_has_its_words() {
    for mistake in mistakes() {
        let run = palgwern(&["check", "-"], mistake.sheet.as_bytes());
        let expected: String = mistake.words.iter().map(|line| format!("-: {line}\n")).collect();
        assert_eq!(run.output, expected, "{}", mistake.title);
        assert_eq!(run.status, Some(i32::from(!expected.contains("accepted"))), "{}", mistake.title);
    }
}

#[test]
fn every_number_and_warning_occurs() {
    let words: Vec<String> = mistakes().into_iter().flat_map(|mistake| mistake.words).collect();
    for word in WORDS {
        assert!(words.iter().any(|line| line.contains(word)), "{word}");
    }
}

/// Numbers that no sheet gets have their words too.
#[test]
fn every_number_has_its_words() {
    for number in 1..=15 {
        assert!(refusals::word(number) != "refused" && refusals::meaning(number) != "the library refuses it", "{number}");
    }
    assert_eq!((refusals::word(10), refusals::meaning(10)), ("short", "the memory that was lent is too short"));
}
