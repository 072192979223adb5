//! A sheet written as text.
use crate::sheet::{letter, AxisSheet, Part, Sheet, Times, Track, Written, AXES};
use crate::values::{bits, fields};
use palgwern::Size;

impl Sheet {
    /// The sheet in its own order: axes, the picture or else the areas, the lines of the columns, those of the rows, placements.
    pub fn write(&self) -> String {
        let mut lines: Vec<String> = AXES.iter().filter_map(|&axis| axis_line(self.axis(axis), letter(axis))).collect();
        lines.extend(self.picture.iter().map(|row| format!("row\t{}", row.words.join("\t"))));
        let areas = if self.picture.is_empty() { &self.areas[..] } else { &[] };
        lines.extend(areas.iter().map(|area| {
            let ((top, bottom), (left, right)) = (area.rows, area.columns);
            format!("area\t{}\t{top}\t{bottom}\t{left}\t{right}", area.name)
        }));
        for axis in AXES {
            write_axis(self.axis(axis), letter(axis), &mut lines);
        }
        lines.extend(
            self.places
                .iter()
                .map(|place| format!("place\t{}\t{}\t{}", letter(place.axis), written_fields(&place.start), written_fields(&place.end))),
        );
        lines.iter().map(|line| format!("{line}\n")).collect()
    }
}

fn axis_line(axis: &AxisSheet, letter: &str) -> Option<String> {
    let inner = axis.inner.map_or("-".to_string(), bits);
    let rule = if axis.minimum { "min" } else { "max" };
    let given = axis.inner.is_some() || axis.gap != Size::Length(0.0);
    given.then(|| format!("axis\t{letter}\t{inner}\t{rule}\t{}", fields(axis.gap)))
}

fn write_axis(axis: &AxisSheet, letter: &str, lines: &mut Vec<String>) {
    let size = |track: &Track| format!("{letter}\t{}\t{}", fields(track.minimum), fields(track.maximum));
    write_parts(&axis.template, letter, lines);
    lines.extend(axis.spares.iter().map(|track| format!("spare\t{}", size(track))));
    if axis.extra != (0, 0) {
        lines.push(format!("extra\t{letter}\t{}\t{}", axis.extra.0, axis.extra.1));
    }
    lines.extend(axis.items.iter().map(|(_, index)| format!("item\t{letter}\t{index}")));
}

fn write_parts(parts: &[(usize, Part)], letter: &str, lines: &mut Vec<String>) {
    for (_, part) in parts {
        match part {
            Part::Name(name) => lines.push(format!("name\t{letter}\t{name}")),
            Part::Track(track) => lines.push(format!("track\t{letter}\t{}\t{}", fields(track.minimum), fields(track.maximum))),
            Part::Repeat(times, inside) => {
                let times = match times {
                    Times::Count(count) => count.to_string(),
                    Times::Fill => "fill".to_string(),
                    Times::Fit => "fit".to_string(),
                };
                lines.push(format!("repeat\t{letter}\t{times}"));
                write_parts(inside, letter, lines);
                lines.push(format!("end\t{letter}"));
            }
        }
    }
}

fn written_fields(end: &Written) -> String {
    match end {
        Written::Auto => "auto\t-\t0".to_string(),
        Written::Line(line) => format!("line\t-\t{line}"),
        Written::Named(name, index) => format!("named\t{name}\t{index}"),
        Written::Span(span) => format!("span\t-\t{span}"),
        Written::NamedSpan(name, span) => format!("nspan\t{name}\t{span}"),
    }
}
