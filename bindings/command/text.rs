//! The text of a sheet: lines, and their fields parted by tabs.

/// A line with its number, from 1; the last one may lack its line feed.
pub struct Line<'a> {
    pub number: usize,
    pub fields: Vec<&'a [u8]>,
    pub ended: bool,
}

impl Line<'_> {
    /// The word that the line begins with.
    pub fn word(&self) -> &[u8] {
        self.fields[0]
    }
}

/// The lines of a sheet.
pub fn lines<'a>(sheet: &'a [u8]) -> Vec<Line<'a>> {
    let mut parts: Vec<&[u8]> = sheet.split(|&byte| byte == b'\n').collect();
    let whole = parts.len() - 1;
    if parts[whole].is_empty() {
        parts.pop();
    }
    let line =
        |(at, part): (usize, &'a [u8])| Line { number: at + 1, fields: part.split(|&byte| byte == b'\t').collect(), ended: at < whole };
    parts.into_iter().enumerate().map(line).collect()
}

/// A field between quotes: bytes outside of ASCII's signs by their code, long ones cut.
pub fn quoted(field: &[u8]) -> String {
    const LONGEST: usize = 48;
    let plain: String = field.iter().take(LONGEST).map(|&byte| shown(byte)).collect();
    format!("'{plain}{}'", if field.len() > LONGEST { ".." } else { "" })
}

fn shown(byte: u8) -> String {
    if (32..=126).contains(&byte) {
        (byte as char).to_string()
    } else {
        format!("\\x{byte:02x}")
    }
}

/// A whole number with commas between thousands.
pub fn grouped(number: i64) -> String {
    let digits = number.unsigned_abs().to_string();
    let mut text = String::new();
    for (at, digit) in digits.chars().enumerate() {
        if at > 0 && (digits.len() - at).is_multiple_of(3) {
            text.push(',');
        }
        text.push(digit);
    }
    if number < 0 {
        format!("-{text}")
    } else {
        text
    }
}

/// Words in a row: `a, b or c`.
pub fn listed(words: &[&str]) -> String {
    match words {
        [] => String::new(),
        [one] => one.to_string(),
        [first @ .., last] => format!("{} or {last}", first.join(", ")),
    }
}

/// `1 track`, `2 tracks`.
pub fn counted(number: usize, word: &str) -> String {
    format!("{} {word}{}", grouped(number as i64), if number == 1 { "" } else { "s" })
}
