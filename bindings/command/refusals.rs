//! The numbers of refusals: the word of each, and what it means.

/// Number, word and meaning; a number that is added is one line more.
const REFUSALS: &[(u32, &str, &str)] = &[
    (1, "unread", "the sheet is too long, or the line has no form of a sheet"),
    (2, "name", "a name is not 1 to 32 bytes of the codes 33 to 126"),
    (3, "value", "a size is outside the range of its kind"),
    (4, "count", "a whole number is outside its range"),
    (5, "area", "an area's start is not below its end"),
    (6, "twice", "an area name or an axis line stands already"),
    (7, "late", "the line is earlier in kind than one before it: axis lines, then area lines or rows, then the rest"),
    (8, "crowded", "one more would pass a limit"),
    (9, "zero line", "line 0 is no line of a grid"),
    (10, "short", "the memory that was lent is too short"),
    (11, "indefinite", "a track or a gutter has no definite size"),
    (12, "overlap", "two areas share a cell"),
    (13, "unequal", "a row of a picture is not as wide as its first one"),
    (14, "broken", "the cells of a name in a picture form no filled rectangle"),
    (15, "unplaced", "a cell has no place in the grid"),
];

/// The word of a number.
pub fn word(number: u32) -> &'static str {
    found(number).map_or("refused", |(_, word, _)| word)
}

/// What a number means.
pub fn meaning(number: u32) -> &'static str {
    found(number).map_or("the library refuses it", |(_, _, meaning)| meaning)
}

fn found(number: u32) -> Option<&'static (u32, &'static str, &'static str)> {
    REFUSALS.iter().find(|(of, _, _)| *of == number)
}
