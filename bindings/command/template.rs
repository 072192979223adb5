//! What a template writes, and why one counts as none.
use crate::sheet::{Part, Times};
use crate::values::is_fixed;

type Parts = [(usize, Part)];

/// The tracks that a template writes outside of automatic repeats, and whether it has one.
pub fn tracks(parts: &Parts) -> (u64, bool) {
    counts(parts, |part| matches!(part, Part::Track(_)))
}

/// The name entries that a template writes outside of automatic repeats, and whether it has one.
pub fn entries(parts: &Parts) -> (u64, bool) {
    counts(parts, |part| matches!(part, Part::Name(_)))
}

fn counts(parts: &Parts, is_one: fn(&Part) -> bool) -> (u64, bool) {
    let mut found = (0, false);
    for (_, part) in parts {
        match part {
            Part::Repeat(Times::Count(count), inside) => found.0 += u64::from(*count) * counts(inside, is_one).0,
            Part::Repeat(..) => found.1 = true,
            one => found.0 += u64::from(is_one(one)),
        }
    }
    found
}

/// The repeats of a template that are automatic, with their lines.
pub fn automatic(parts: &Parts) -> Vec<(usize, Times)> {
    let of = |(line, part): &(usize, Part)| match part {
        Part::Repeat(times @ (Times::Fill | Times::Fit), _) => Some((*line, *times)),
        _ => None,
    };
    parts.iter().filter_map(of).collect()
}

/// Whether a template writes a name.
pub fn writes(parts: &Parts, name: &str) -> bool {
    parts.iter().any(|(_, part)| match part {
        Part::Name(one) => one == name,
        Part::Repeat(_, inside) => writes(inside, name),
        Part::Track(_) => false,
    })
}

/// Why CSS takes a template for none, with the line that makes it so.
pub fn why_none(parts: &Parts) -> Option<(usize, String)> {
    names_alone(parts).or_else(|| bad_repeat(parts)).or_else(|| two_automatic(parts)).or_else(|| not_fixed(parts))
}

fn names_alone(parts: &Parts) -> Option<(usize, String)> {
    let line = parts.first()?.0;
    let alone = parts.iter().all(|(_, part)| matches!(part, Part::Name(_)));
    alone.then(|| (line, "names without a track are no template".to_string()))
}

fn bad_repeat(parts: &Parts) -> Option<(usize, String)> {
    parts.iter().find_map(|(line, part)| match part {
        Part::Repeat(_, inside) if !inside.iter().any(|(_, one)| matches!(one, Part::Track(_))) => {
            Some((*line, format!("the repeat of line {line} has no track")))
        }
        Part::Repeat(Times::Count(0), _) => Some((*line, format!("the repeat of line {line} is written 0 times, and once is the least"))),
        _ => None,
    })
}

fn two_automatic(parts: &Parts) -> Option<(usize, String)> {
    match automatic(parts)[..] {
        [(first, _), (second, _), ..] => Some((second, format!("line {second} is a second automatic repeat beside that of line {first}"))),
        _ => None,
    }
}

/// A track without a fixed part beside or in an automatic repeat.
fn not_fixed(parts: &Parts) -> Option<(usize, String)> {
    let (repeat, _) = *automatic(parts).first()?;
    let inside = |(line, part): &'_ (usize, Part)| match part {
        Part::Repeat(_, inside) => inside.clone(),
        one => vec![(*line, one.clone())],
    };
    let (line, _) = parts.iter().flat_map(inside).find(|(_, part)| match part {
        Part::Track(track) => !is_fixed(track.minimum) && !is_fixed(track.maximum),
        _ => false,
    })?;
    Some((line, format!("beside the automatic repeat of line {repeat} every track needs a length or a percentage as its minimum or its maximum, and that of line {line} has neither")))
}
