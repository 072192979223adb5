//! What is wrong with one field of a line, in words.
use crate::forms::{nearest, Field};
use crate::limits;
use crate::text::{grouped, listed, quoted};
use crate::values::{bits, fraction, largest, value, whole};

/// A fault that was found: the number of its refusal, and its words.
pub type Fault = (u32, String);

const UNREAD: u32 = 1;
const NAME: u32 = 2;
const VALUE: u32 = 3;
const COUNT: u32 = 4;
/// How a whole number is spelt.
const SPELLING: &str = "digits, '-' before a negative one, no leading zero";

/// The fault of field `at` of a line, if it has one.
pub fn fault(fields: &[&[u8]], at: usize, form: Field) -> Option<Fault> {
    let text = fields[at];
    match form {
        Field::Word(words) => word(text, words),
        Field::Name => name(text),
        Field::Cell if !text.is_empty() && text.iter().all(|&byte| byte == b'.') => None,
        Field::Cell => name(text),
        Field::Whole(low, high) => whole_number(text, low, high),
        Field::Size => size(text, fields[at - 1]),
        Field::Inner if text == b"-" => None,
        Field::Inner => size(text, b"len"),
        Field::Times => times(text),
        Field::EndName if matches!(fields[at - 1], b"named" | b"nspan") => name(text),
        Field::EndName => unused(text, "-", fields[at - 1]),
        Field::CellNumber if fields[at - 2] == b"span" => whole_number(text, 1, limits::CELL_SPAN),
        Field::EndNumber | Field::CellNumber => match fields[at - 2] {
            b"line" | b"named" => whole_number(text, -limits::INDEX - 1, limits::INDEX),
            b"span" | b"nspan" => whole_number(text, 0, limits::REPEATS),
            kind => unused(text, "0", kind),
        },
    }
}

fn word(text: &[u8], words: &'static [&'static str]) -> Option<Fault> {
    if words.iter().any(|one| one.as_bytes() == text) {
        return None;
    }
    let maximum_only = matches!(text, b"fr" | b"fitl" | b"fitp") && words.contains(&"auto");
    let reason = if maximum_only { "is for the maximum alone" } else { "is not known here" };
    let near = nearest(&String::from_utf8_lossy(text), words.iter().copied()).map_or(String::new(), |one| format!("; '{one}' is meant?"));
    Some((UNREAD, format!("{} {reason}: {} is expected{near}", quoted(text), listed(words))))
}

fn unused(text: &[u8], empty: &str, kind: &[u8]) -> Option<Fault> {
    let words = format!("{} is filled, but {} uses no such field: '{empty}' is expected", quoted(text), quoted(kind));
    if text == empty.as_bytes() {
        None
    } else {
        Some((UNREAD, words))
    }
}

fn name(text: &[u8]) -> Option<Fault> {
    let bad = text.iter().find(|byte| !(33..=126).contains(*byte));
    let reason = match (text.len(), bad) {
        (0, _) => "the name is empty".to_string(),
        (_, Some(b' ')) => format!("{} has a space", quoted(text)),
        (_, Some(b'\r')) => format!("{} ends in a carriage return: lines end in a line feed alone", quoted(text)),
        (_, Some(byte)) => format!("{} has a byte of code {byte}", quoted(text)),
        (length, None) if length > limits::NAME_BYTES => format!("{} has {length} bytes", quoted(text)),
        _ => return None,
    };
    Some((NAME, format!("{reason}; a name is 1 to {} letters, digits and signs of ASCII", limits::NAME_BYTES)))
}

fn whole_number(text: &[u8], low: i64, high: i64) -> Option<Fault> {
    let Some(number) = whole(text) else {
        let meant =
            String::from_utf8_lossy(text).trim().parse::<f64>().ok().filter(|number| *number == number.trunc() && number.abs() < 1e9);
        let hint = meant.map_or(String::new(), |number| format!("; '{}' is meant?", number as i64));
        return Some((UNREAD, format!("{} is not a whole number ({SPELLING}){hint}", quoted(text))));
    };
    let words = || format!("{} is outside {} to {}", quoted(text), grouped(low), grouped(high));
    if (low..=high).contains(&number) {
        None
    } else {
        Some((COUNT, words()))
    }
}

fn times(text: &[u8]) -> Option<Fault> {
    if text == b"fill" || text == b"fit" || whole(text).is_some() {
        return whole(text).and_then(|_| whole_number(text, 0, limits::REPEATS));
    }
    let word = String::from_utf8_lossy(text).to_lowercase();
    let near =
        nearest(word.trim_start_matches("auto-"), ["fill", "fit"].into_iter()).map_or(String::new(), |one| format!("; '{one}' is meant?"));
    Some((UNREAD, format!("{} says no number of times: a whole number ({SPELLING}), fill or fit is expected{near}", quoted(text))))
}

fn size(text: &[u8], kind: &[u8]) -> Option<Fault> {
    match value(text) {
        None => Some((UNREAD, format!("{} is not eight lower-case hexadecimal digits{}", quoted(text), spelt_otherwise(text, kind)))),
        Some(value) => out_of_range(value, kind).map(|reason| (VALUE, format!("{} {reason}", quoted(text)))),
    }
}

/// The bits that a size in decimal digits has, or in other letters.
fn spelt_otherwise(text: &[u8], kind: &[u8]) -> String {
    let text = String::from_utf8_lossy(text);
    let lower = text.to_lowercase();
    if lower != text && value(lower.as_bytes()).is_some() {
        return format!("; it is written {lower}");
    }
    let digits = lower.trim().trim_end_matches("px").trim_end_matches("fr").trim_end_matches('%').trim();
    let Ok(number) = digits.parse::<f32>() else { return String::new() };
    if number.is_nan() || number.is_infinite() {
        return String::new();
    }
    if matches!(kind, b"pct" | b"fitp") && (text.contains('%') || number > limits::FRACTION) {
        return fraction(digits).map_or(String::new(), |part| format!("; {digits} % is {}", bits(part)));
    }
    format!("; {digits} is {}", bits(number))
}

/// Why a value is outside the range of its kind.
fn out_of_range(value: f32, kind: &[u8]) -> Option<String> {
    let largest = largest(kind);
    if largest == 0.0 {
        let keyword = String::from_utf8_lossy(kind);
        return (value.to_bits() != 0).then(|| format!("is {value}, but the keyword '{keyword}' has the value 00000000"));
    }
    let range = format!("0 to {} is expected", grouped(largest as i64));
    if value.is_nan() {
        Some(format!("is no number: {range}"))
    } else if value.to_bits() == 1 << 31 {
        Some("is minus zero; 0 is 00000000".to_string())
    } else if !(0.0..=largest).contains(&value) {
        let fraction = if matches!(kind, b"pct" | b"fitp") { ", a fraction: 1 is 100 %" } else { "" };
        Some(format!("is {value}: {range}{fraction}"))
    } else {
        None
    }
}
