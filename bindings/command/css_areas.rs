//! Areas as CSS draws them: rows of cells, each with a name or a run of dots.
use crate::css_rules::Wrong;
use crate::css_values::Value;
use crate::limits;
use crate::sheet::{Area, Row};

/// The most cells that are written as a picture.
const MOST_CELLS: u64 = 1_000_000;

/// Areas in the order of their first cells, and the rows of the picture.
pub struct Picture {
    pub areas: Vec<Area>,
    pub rows: Vec<Row>,
}

impl Picture {
    pub fn columns(&self) -> usize {
        self.rows.first().map_or(0, |row| row.words.len())
    }
}

/// Reads the rows of a picture.
pub fn read(value: &mut Value) -> Result<Picture, Wrong> {
    let mut cells: Vec<Vec<String>> = vec![];
    while !value.ended() {
        let row: Vec<String> = value.text()?.split_whitespace().map(str::to_string).collect();
        if let Some(bad) = row.iter().find(|cell| !is_cell(cell)) {
            return Err(value.wrong(&format!("'{bad}' is no name of a cell: letters, digits, '-' and '_', or dots")));
        }
        if row.is_empty() || cells.first().is_some_and(|first| first.len() != row.len()) {
            return Err(value.wrong("every row has the same number of cells, one or more"));
        }
        cells.push(row);
    }
    let mut areas: Vec<Area> = vec![];
    for name in cells.iter().flatten().filter(|cell| !cell.starts_with('.')) {
        if areas.len() > limits::AREAS {
            return Err(value.wrong(&format!("a sheet has at most {} areas", limits::AREAS)));
        }
        if !areas.iter().any(|area| area.name == *name) {
            areas.push(rectangle(&cells, name).ok_or_else(|| value.wrong(&format!("the cells of '{name}' are no filled rectangle")))?);
        }
    }
    Ok(Picture { areas, rows: cells.into_iter().map(|words| Row { line: 0, words }).collect() })
}

fn is_cell(cell: &str) -> bool {
    cell.bytes().all(|byte| byte == b'.') || is_area_name(cell)
}

/// Whether a picture can hold an area of this name.
pub fn is_area_name(name: &str) -> bool {
    name.bytes().all(|byte| byte.is_ascii_alphanumeric() || matches!(byte, b'-' | b'_'))
}

/// The rectangle that the cells of a name fill.
fn rectangle(cells: &[Vec<String>], name: &str) -> Option<Area> {
    let places: Vec<(usize, usize)> = (0..cells.len())
        .flat_map(|row| (0..cells[row].len()).map(move |column| (row, column)))
        .filter(|&(row, column)| cells[row][column] == name)
        .collect();
    let range = |of: fn(&(usize, usize)) -> usize| Some((places.iter().map(of).min()?, places.iter().map(of).max()? + 1));
    let ((top, bottom), (left, right)) = (range(|place| place.0)?, range(|place| place.1)?);
    let line = |place: usize| place as u32 + 1;
    let area = Area { line: 0, name: name.to_string(), rows: (line(top), line(bottom)), columns: (line(left), line(right)) };
    (places.len() == (bottom - top) * (right - left)).then_some(area)
}

fn bad_name(line: usize, name: &str) -> Wrong {
    (line, format!("a picture of areas can't hold the name '{name}': letters, digits, '-' and '_'"))
}

/// The rows of a picture that a sheet draws.
pub fn write_rows(rows: &[Row]) -> Result<Vec<String>, Wrong> {
    let bad = |row: &Row| row.names().find(|(_, name)| !is_area_name(name)).map(|(_, name)| bad_name(row.line, name));
    match rows.iter().find_map(bad) {
        Some(wrong) => Err(wrong),
        None => Ok(rows.iter().map(|row| row.words.join(" ")).collect()),
    }
}

/// The rows of a picture of these areas, or the line and the reason why there is none.
pub fn write(areas: &[Area]) -> Result<Vec<String>, Wrong> {
    for (at, area) in areas.iter().enumerate() {
        if !is_area_name(&area.name) {
            return Err(bad_name(area.line, &area.name));
        }
        if let Some(other) = areas[..at].iter().find(|other| other.meets(area)) {
            return Err((
                area.line,
                format!("area '{}' shares a cell with area '{}', and a cell has one name in CSS", area.name, other.name),
            ));
        }
    }
    let last = areas.last().map_or(0, |area| area.line);
    let end = |of: fn(&Area) -> u32| areas.iter().map(of).max().unwrap_or(1) as usize - 1;
    let (rows, columns) = (end(|area| area.rows.1), end(|area| area.columns.1));
    if rows as u64 * columns as u64 > MOST_CELLS {
        return Err((last, format!("a picture of {rows} rows of {columns} cells is too large to write")));
    }
    let name_at = |row: usize, column: usize| {
        let holds = |(start, end): (u32, u32), place: usize| (start as usize..end as usize).contains(&(place + 1));
        areas.iter().find(|area| holds(area.rows, row) && holds(area.columns, column)).map_or(".", |area| &area.name)
    };
    Ok((0..rows).map(|row| (0..columns).map(|column| name_at(row, column)).collect::<Vec<_>>().join(" ")).collect())
}
