//! Which labels have room beside each other.

/// The width of a letter, and the height of a line of text.
pub const LETTER: f64 = 6.7;
pub const TEXT: f64 = 13.0;

/// How wide a text is.
pub fn width(text: &str) -> f64 {
    text.chars().count() as f64 * LETTER
}

/// A text cut to a number of letters.
pub fn cut(text: &str, letters: usize) -> String {
    if text.chars().count() <= letters {
        return text.to_string();
    }
    text.chars().take(letters.saturating_sub(2)).collect::<String>() + ".."
}

/// Which labels are drawn, by their middles and widths in rising order: the last one, and from the first on those that touch none.
pub fn with_room(labels: &[(f64, f64)]) -> Vec<bool> {
    let Some(&(last, last_width)) = labels.last() else { return vec![] };
    let end_from = last - last_width / 2.0 - 3.0;
    let mut free = f64::NEG_INFINITY;
    let mut drawn: Vec<bool> = labels[..labels.len() - 1]
        .iter()
        .map(|&(middle, width)| {
            let fits = middle - width / 2.0 >= free && middle + width / 2.0 <= end_from;
            if fits {
                free = middle + width / 2.0 + 3.0;
            }
            fits
        })
        .collect();
    drawn.push(true);
    drawn
}

/// A lane for each bar, by their starts and ends, so that no two in a lane touch.
pub fn lanes(bars: &[(f64, f64)]) -> Vec<usize> {
    let mut ends: Vec<f64> = vec![];
    let mut found = vec![];
    for &(start, end) in bars {
        let lane = ends.iter().position(|&before| before + 4.0 <= start).unwrap_or(ends.len());
        if lane == ends.len() {
            ends.push(end);
        } else {
            ends[lane] = end;
        }
        found.push(lane);
    }
    found
}

/// A text in lines of so many letters.
pub fn wrapped(text: &str, letters: usize) -> Vec<String> {
    let mut lines = vec![String::new()];
    for word in text.split(' ') {
        let line = lines.last_mut().unwrap();
        if !line.is_empty() && line.chars().count() + 1 + word.chars().count() > letters {
            lines.push(format!("    {word}"));
        } else {
            *line += if line.is_empty() { "" } else { " " };
            *line += word;
        }
    }
    lines
}
