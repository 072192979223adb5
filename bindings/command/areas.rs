//! Areas drawn: a frame over their cells, with the name.
use crate::facts;
use crate::geometry::Drawn;
use crate::labels::{cut, LETTER, TEXT};
use crate::picture::{class, Picture};
use palgwern::Axis;

/// Draws every area.
pub fn draw(picture: &mut Picture) {
    let answer = picture.answer;
    for (at, area) in answer.sheet.areas.iter().enumerate() {
        let key = facts::area_key(&area.name);
        let edges = |(start, end): (u32, u32)| format!("{start} {end}");
        let attributes = [
            class(&format!("area a{}", at % 6), picture.differs(&key)),
            ("data-name", area.name.clone()),
            ("data-line", area.line.to_string()),
            ("data-rows", edges(area.rows)),
            ("data-columns", edges(area.columns)),
        ];
        picture.svg.open("g", &attributes);
        picture.svg.words(
            "title",
            &[],
            &format!(
                "line {}: {key}, rows {} to {}, columns {} to {}",
                area.line, area.rows.0, area.rows.1, area.columns.0, area.columns.1
            ),
        );
        let between = |drawn: &Drawn, (start, end): (u32, u32)| (drawn.start(start as i32 - 1), drawn.end(end as i32 - 1));
        let (along, down) = (between(&picture.drawn[0], area.columns), between(&picture.drawn[1], area.rows));
        picture.rectangle("", Axis::Columns, (along.0 + 2.0, along.1 - 2.0), (down.0 + 2.0, down.1 - 2.0));
        let letters = ((along.1 - along.0 - 10.0) / LETTER).max(0.0) as usize;
        if letters >= 3 && down.1 - down.0 >= TEXT + 4.0 {
            let point = picture.point(Axis::Columns, along.0 + 7.0, down.0 + TEXT + 2.0);
            picture.label("", point, "start", 0, &cut(&area.name, letters));
        }
        picture.svg.close();
    }
}
