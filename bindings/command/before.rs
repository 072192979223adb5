//! What the lines before a refused one leave: what stands already, what is open, and how full it is.
use crate::fields::Fault;
use crate::forms::order_of;
use crate::limits;
use crate::sheet::{areas_of, Area, Row, Sheet};
use crate::text::{counted, grouped, quoted, Line};

const UNREAD: u32 = 1;
const COUNT: u32 = 4;
const AREA: u32 = 5;
const TWICE: u32 = 6;
const LATE: u32 = 7;
const CROWDED: u32 = 8;
const OVERLAP: u32 = 12;
const UNEQUAL: u32 = 13;
const BROKEN: u32 = 14;

/// What one axis has so far.
#[derive(Default)]
struct AxisBefore {
    axis_line: Option<usize>,
    components: usize,
    /// The line of the repeat that is open, and its tracks so far.
    open: Option<(usize, usize)>,
    spares: usize,
}

/// The lines before one, all of them good.
#[derive(Default)]
pub struct Before {
    axes: [AxisBefore; 2],
    areas: Vec<Area>,
    picture: Vec<Row>,
    placements: usize,
    /// The line that is latest in the order of kinds, and its word.
    latest: Option<(usize, Vec<u8>)>,
}

fn axis_of(line: &Line) -> Option<usize> {
    [&b"c"[..], b"r"].iter().position(|letter| line.fields.get(1) == Some(letter))
}

/// The area of a line.
fn area_of(line: &Line) -> Option<Area> {
    if line.word() != b"area" {
        return None;
    }
    let text = line.fields.join(&b'\t');
    let mut area = Sheet::read(&text).areas.pop()?;
    area.line = line.number;
    Some(area)
}

/// The row of a picture of a line.
fn row_of(line: &Line) -> Option<Row> {
    let mut row = Sheet::read(&line.fields.join(&b'\t')).picture.pop()?;
    row.line = line.number;
    Some(row)
}

impl Before {
    /// One good line more.
    pub fn add(&mut self, line: &Line) {
        self.areas.extend(area_of(line));
        self.picture.extend(row_of(line));
        self.placements += usize::from(matches!(line.word(), b"place" | b"cell"));
        if self.latest.as_ref().is_none_or(|(_, word)| order_of(word) < order_of(line.word())) {
            self.latest = Some((line.number, line.word().to_vec()));
        }
        let Some(axis) = axis_of(line).map(|at| &mut self.axes[at]) else { return };
        match line.word() {
            b"axis" => axis.axis_line = Some(line.number),
            b"spare" => axis.spares += 1,
            b"end" => axis.open = None,
            b"repeat" => (axis.components, axis.open) = (axis.components + 1, Some((line.number, 0))),
            b"track" => match &mut axis.open {
                Some((_, tracks)) => *tracks += 1,
                None => axis.components += 1,
            },
            _ => {}
        }
    }

    /// The faults of a line that lie in what stands before it.
    pub fn faults(&self, line: &Line) -> Vec<Fault> {
        let mut found = self.nesting(line);
        if let Some(area) = area_of(line) {
            found.extend(reversed(&area));
            let drawn = areas_of(&self.picture);
            found.extend(
                self.areas
                    .iter()
                    .chain(&drawn)
                    .find(|one| one.name == area.name)
                    .map(|one| (TWICE, format!("field 2, the name: the area '{}' stands already, at line {}", area.name, one.line))),
            );
            let other = self.areas.iter().find(|one| one.meets(&area));
            found.extend(
                other.map(|one| (OVERLAP, format!("area '{}' shares a cell with area '{}' of line {}", area.name, one.name, one.line))),
            );
        }
        found.extend(row_of(line).map_or(vec![], |row| self.row_faults(row)));
        let twice = axis_of(line).filter(|_| line.word() == b"axis").and_then(|at| self.axes[at].axis_line);
        found.extend(twice.map(|at| (TWICE, format!("field 2, the axis: {} has its line already, line {at}", quoted(line.fields[1])))));
        found.extend(self.late(line));
        found.extend(self.crowded(line).map(|words| (CROWDED, words)));
        found
    }

    /// The faults of a row beside those before it.
    fn row_faults(&self, row: Row) -> Vec<Fault> {
        let mut found = vec![];
        let (width, most) = (row.words.len(), limits::ROW_WORDS);
        found.extend((width > most).then(|| (COUNT, format!("the row has {} words, and {} are the most", grouped(width as i64), grouped(most as i64)))));
        if let Some(first) = self.picture.first().filter(|first| first.words.len() != width) {
            let (own, other) = (counted(width, "word"), counted(first.words.len(), "word"));
            found.push((UNEQUAL, format!("the row has {own}, and the first row, line {}, has {other}", first.line)));
        }
        let picture: Vec<Row> = self.picture.iter().cloned().chain([row]).collect();
        found.extend(broken(&picture));
        found
    }

    fn nesting(&self, line: &Line) -> Vec<Fault> {
        let Some(axis) = axis_of(line).map(|at| &self.axes[at]) else { return vec![] };
        let letter = quoted(line.fields[1]);
        match (line.word(), axis.open) {
            (b"end", None) => vec![(UNREAD, format!("no repeat is open on axis {letter}"))],
            (b"repeat", Some((at, _))) => {
                vec![(UNREAD, format!("the repeat of line {at} is open on axis {letter}, and a repeat holds no repeat"))]
            }
            _ => vec![],
        }
    }

    fn late(&self, line: &Line) -> Option<Fault> {
        let (at, word) = self.latest.as_ref()?;
        let order = "first all 'axis' lines, then all 'area' or 'row' lines, then the rest";
        let both = "areas are drawn by 'area' lines or by 'row' lines, not by both";
        let words = |rule: &str| format!("the {} line {at} stands before it: {rule}", quoted(word));
        let other_kind = order_of(line.word()) == order_of(word) && order_of(word) == order_of(b"row") && line.word() != word;
        if order_of(line.word()) < order_of(word) {
            Some((LATE, words(order)))
        } else {
            other_kind.then(|| (LATE, words(both)))
        }
    }

    /// The limit that a line would pass.
    fn crowded(&self, line: &Line) -> Option<String> {
        let full =
            |number: usize, most: usize, what: &str| (number >= most).then(|| format!("{most} {what} are the most, and this is one more"));
        match line.word() {
            b"area" => return full(self.areas.len(), limits::AREAS, "drawn areas"),
            b"row" => return self.crowded_row(line),
            b"place" | b"cell" => return full(self.placements, limits::PLACEMENTS, "placements and cells"),
            _ => {}
        }
        let axis = &self.axes[axis_of(line)?];
        match (line.word(), axis.open) {
            (b"track", Some((_, tracks))) => full(tracks, limits::REPEAT_TRACKS, "tracks in a repeat"),
            (b"track" | b"repeat", _) => full(axis.components, limits::COMPONENTS, "single tracks and repeats of an axis"),
            (b"spare", _) => full(axis.spares, limits::SPARES, "spare sizes of an axis"),
            _ => None,
        }
    }

    /// The name of a row that is one too many.
    fn crowded_row(&self, line: &Line) -> Option<String> {
        let picture: Vec<Row> = self.picture.iter().cloned().chain(row_of(line)).collect();
        let more = areas_of(&picture).into_iter().nth(limits::AREAS)?;
        Some(format!("{} drawn areas are the most, and '{}' is one more", limits::AREAS, more.name))
    }

    /// The repeats that are open after the last line, by their lines.
    pub fn open(&self) -> Vec<usize> {
        self.axes.iter().filter_map(|axis| axis.open.map(|(line, _)| line)).collect()
    }
}

/// The first name of a picture whose cells form no filled rectangle, and a cell between them that has another word.
fn broken(picture: &[Row]) -> Option<Fault> {
    for area in areas_of(picture) {
        for row in &picture[area.rows.0 as usize - 1..area.rows.1 as usize - 1] {
            let words = row.words.iter().enumerate().take(area.columns.1 as usize - 1).skip(area.columns.0 as usize - 1);
            if let Some((column, word)) = words.into_iter().find(|(_, word)| **word != area.name) {
                let between = format!("{} stands between them, at line {}, field {}", quoted(word.as_bytes()), row.line, column + 2);
                return Some((BROKEN, format!("the cells of '{}' form no filled rectangle: {between}", area.name)));
            }
        }
    }
    None
}

/// An area whose start is not below its end.
fn reversed(area: &Area) -> Option<Fault> {
    let faulty = [("row", 3, area.rows), ("column", 5, area.columns)].into_iter().find(|(_, _, (start, end))| start >= end);
    faulty.map(|(axis, at, (start, end))| {
        (AREA, format!("fields {at} and {}: the {axis} start {start} is not below the {axis} end {end}", at + 1))
    })
}
