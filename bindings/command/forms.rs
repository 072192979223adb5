//! The forms of a sheet's lines: what each field is called and what it may hold.
use crate::limits;

/// What a field may hold.
#[derive(Clone, Copy)]
pub enum Field {
    /// One of these words.
    Word(&'static [&'static str]),
    Name,
    /// A name, or dots.
    Cell,
    /// A whole number in a range.
    Whole(i64, i64),
    /// A size of the kind that the field before it says.
    Size,
    /// A length, or `-`.
    Inner,
    /// A count, `fill` or `fit`.
    Times,
    /// The name of a placement's end, by the kind in the field before it.
    EndName,
    /// The number of a placement's end, by the kind two fields before it.
    EndNumber,
    /// The same of a cell's end.
    CellNumber,
}
use Field::*;

/// The form of a line: its first word, and the fields after it; the one field of a row stands once or more.
pub struct Form {
    pub word: &'static str,
    pub fields: &'static [(&'static str, Field)],
}

impl Form {
    /// Whether a line has as many fields as its form.
    pub fn has_fields(&self, count: usize) -> bool {
        if self.is_row() {
            count > 1
        } else {
            count == self.fields.len() + 1
        }
    }

    pub fn is_row(&self) -> bool {
        self.word == "row"
    }

    /// What the field at a place after the word is called, and what it may hold.
    pub fn field(&self, at: usize) -> (&'static str, Field) {
        self.fields[if self.is_row() { 0 } else { at }]
    }
}

pub const MINIMUM_KINDS: &[&str] = &["len", "pct", "auto", "min", "max"];
pub const KINDS: &[&str] = &["len", "pct", "fr", "auto", "min", "max", "fitl", "fitp"];
pub const END_KINDS: &[&str] = &["auto", "line", "named", "span", "nspan"];
const AXIS: (&str, Field) = ("axis", Word(&["c", "r"]));
const EDGE: Field = Whole(1, limits::EDGE);
const IMPLICIT: Field = Whole(0, limits::TRACKS);
const TRACK: &[(&str, Field)] =
    &[AXIS, ("minimum kind", Word(MINIMUM_KINDS)), ("minimum", Size), ("maximum kind", Word(KINDS)), ("maximum", Size)];

pub const FORMS: &[Form] = &[
    Form {
        word: "axis",
        fields: &[AXIS, ("inner size", Inner), ("rule", Word(&["max", "min"])), ("gap kind", Word(&["len", "pct"])), ("gap", Size)],
    },
    Form { word: "area", fields: &[("name", Name), ("row start", EDGE), ("row end", EDGE), ("column start", EDGE), ("column end", EDGE)] },
    Form { word: "row", fields: &[("word", Cell)] },
    Form { word: "name", fields: &[AXIS, ("name", Name)] },
    Form { word: "track", fields: TRACK },
    Form { word: "repeat", fields: &[AXIS, ("count", Times)] },
    Form { word: "end", fields: &[AXIS] },
    Form { word: "spare", fields: TRACK },
    Form { word: "extra", fields: &[AXIS, ("negative count", IMPLICIT), ("positive count", IMPLICIT)] },
    Form { word: "item", fields: &[AXIS, ("track index", Whole(0, limits::ITEM))] },
    Form {
        word: "place",
        fields: &[
            AXIS,
            ("start kind", Word(END_KINDS)),
            ("start name", EndName),
            ("start number", EndNumber),
            ("end kind", Word(END_KINDS)),
            ("end name", EndName),
            ("end number", EndNumber),
        ],
    },
    Form {
        word: "cell",
        fields: &[
            ("column start kind", Word(END_KINDS)),
            ("column start name", EndName),
            ("column start number", CellNumber),
            ("column end kind", Word(END_KINDS)),
            ("column end name", EndName),
            ("column end number", CellNumber),
            ("row start kind", Word(END_KINDS)),
            ("row start name", EndName),
            ("row start number", CellNumber),
            ("row end kind", Word(END_KINDS)),
            ("row end name", EndName),
            ("row end number", CellNumber),
        ],
    },
];

/// The form of a line that begins with a word.
pub fn form_of(word: &[u8]) -> Option<&'static Form> {
    FORMS.iter().find(|form| form.word.as_bytes() == word)
}

/// The order of kinds: `axis` lines, then `area` lines or `row` lines, then the rest.
pub fn order_of(word: &[u8]) -> usize {
    match word {
        b"axis" => 0,
        b"area" | b"row" => 1,
        _ => 2,
    }
}

/// The word that is nearest to another one, where one is near.
pub fn nearest<'a>(word: &str, words: impl Iterator<Item = &'a str>) -> Option<&'a str> {
    let lower = word.to_lowercase();
    words
        .map(|one| (distance(&lower, &one.to_lowercase()), one))
        .filter(|(far, one)| *far <= 2 && *far * 2 < one.len().max(2))
        .min()
        .map(|(_, one)| one)
}

/// How many letters have to be put in, taken away, changed or swapped with the next to make one word of another.
fn distance(one: &str, other: &str) -> usize {
    let (one, other): (Vec<char>, Vec<char>) = (one.chars().collect(), other.chars().collect());
    let mut rows: Vec<Vec<usize>> = vec![(0..=other.len()).collect()];
    for i in 1..=one.len() {
        let mut row = vec![i];
        for j in 1..=other.len() {
            let changed = rows[i - 1][j - 1] + usize::from(one[i - 1] != other[j - 1]);
            let mut least = changed.min(row[j - 1] + 1).min(rows[i - 1][j] + 1);
            if i > 1 && j > 1 && one[i - 1] == other[j - 2] && one[i - 2] == other[j - 1] {
                least = least.min(rows[i - 2][j - 2] + 1);
            }
            row.push(least);
        }
        rows.push(row);
    }
    rows[one.len()][other.len()]
}
