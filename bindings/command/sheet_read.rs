//! A sheet read from text that the library accepts.
use crate::sheet::{areas_of, Area, AxisSheet, Part, Place, Row, Sheet, Times, Track, Written};
use crate::text;
use crate::values::{self, whole};
use palgwern::Axis;

/// Reads a sheet line by line.
struct Reader {
    sheet: Sheet,
    open: [bool; 2],
}

impl Sheet {
    /// What a sheet says; a line of no form says nothing.
    pub fn read(bytes: &[u8]) -> Sheet {
        let mut reader = Reader { sheet: Sheet::empty(), open: [false, false] };
        for line in text::lines(bytes) {
            reader.line(line.number, &line.fields);
        }
        if !reader.sheet.picture.is_empty() {
            reader.sheet.areas = areas_of(&reader.sheet.picture);
        }
        reader.sheet
    }
}

/// Where the next name or track goes: into the repeat that is open, else into the template.
fn open(axis: &mut AxisSheet, inside: bool) -> &mut Vec<(usize, Part)> {
    if inside && matches!(axis.template.last(), Some((_, Part::Repeat(..)))) {
        match axis.template.last_mut() {
            Some((_, Part::Repeat(_, parts))) => return parts,
            _ => unreachable!("the last part is a repeat"),
        }
    }
    &mut axis.template
}

fn name_of(field: &[u8]) -> String {
    String::from_utf8_lossy(field).into_owned()
}

fn track_of(fields: &[&[u8]]) -> Option<Track> {
    let minimum = values::size(fields.first()?, values::value(fields.get(1)?)?)?;
    let maximum = values::size(fields.get(2)?, values::value(fields.get(3)?)?)?;
    Some(Track { minimum, maximum })
}

fn end_of(fields: &[&[u8]]) -> Option<Written> {
    let (kind, name, number) = (fields.first()?, name_of(fields.get(1)?), whole(fields.get(2)?)?);
    Some(match *kind {
        b"auto" => Written::Auto,
        b"line" => Written::Line(number as i32),
        b"named" => Written::Named(name, number as i32),
        b"span" => Written::Span(number as u32),
        b"nspan" => Written::NamedSpan(name, number as u32),
        _ => return None,
    })
}

impl Reader {
    /// What a line says, or nothing where a field of it is missing or ill spelt.
    fn line(&mut self, number: usize, fields: &[&[u8]]) -> Option<()> {
        if fields[0] == b"area" {
            let edge = |at: usize| Some(whole(fields.get(at)?)?.clamp(0, i64::from(u32::MAX)) as u32);
            let (rows, columns) = ((edge(2)?, edge(3)?), (edge(4)?, edge(5)?));
            self.sheet.areas.push(Area { line: number, name: name_of(fields.get(1)?), rows, columns });
            return Some(());
        }
        if fields[0] == b"row" {
            self.sheet.picture.push(Row { line: number, words: fields[1..].iter().map(|field| name_of(field)).collect() });
            return Some(());
        }
        if fields[0] == b"cell" {
            self.sheet.cells.push(number);
            return Some(());
        }
        let axis = match *fields.get(1)? {
            b"c" => Axis::Columns,
            b"r" => Axis::Rows,
            _ => return None,
        };
        if fields[0] == b"place" {
            let (start, end) = (end_of(&fields[2..])?, end_of(fields.get(5..)?)?);
            self.sheet.places.push(Place { line: number, axis, start, end });
            return Some(());
        }
        self.axis_line(number, axis, fields)
    }

    fn axis_line(&mut self, number: usize, axis: Axis, fields: &[&[u8]]) -> Option<()> {
        let (inside, axis) = (&mut self.open[axis as usize], &mut self.sheet.axes[axis as usize]);
        match fields[0] {
            b"axis" => {
                (axis.inner, axis.minimum) = (values::value(fields.get(2)?), *fields.get(3)? == b"min");
                axis.gap = values::size(fields.get(4)?, values::value(fields.get(5)?)?)?;
            }
            b"name" => open(axis, *inside).push((number, Part::Name(name_of(fields.get(2)?)))),
            b"track" => open(axis, *inside).push((number, Part::Track(track_of(&fields[2..])?))),
            b"repeat" => {
                let times = match *fields.get(2)? {
                    b"fill" => Times::Fill,
                    b"fit" => Times::Fit,
                    count => Times::Count(whole(count)? as u32),
                };
                axis.template.push((number, Part::Repeat(times, vec![])));
                *inside = true;
            }
            b"end" => *inside = false,
            b"spare" => axis.spares.push(track_of(&fields[2..])?),
            b"extra" => axis.extra = (whole(fields.get(2)?)? as u32, whole(fields.get(3)?)? as u32),
            b"item" => axis.items.push((number, whole(fields.get(2)?)? as u32)),
            _ => return None,
        }
        Some(())
    }
}
