//! `palgwern from-css`: the sheet of a CSS grid.
use crate::answer::Answer;
use crate::css_areas::{self, Picture};
use crate::css_rules::{rules, Declaration, Wrong};
use crate::css_values::Value;
use crate::faults;
use crate::sheet::{AxisSheet, Place, Sheet};
use palgwern::{Axis, Size};

/// Properties that make a rule the panel; sizes alone do not.
const PANEL: &[&str] = &[
    "grid-template-columns",
    "grid-template-rows",
    "grid-template-areas",
    "grid-auto-columns",
    "grid-auto-rows",
    "gap",
    "row-gap",
    "column-gap",
    "--extra-columns",
    "--extra-rows",
    "--item-columns",
    "--item-rows",
    "display",
];
const ITEM: &[&str] = &["grid-column", "grid-row"];

/// The panel and its items, as far as they are read.
struct Reading {
    sheet: Sheet,
    picture: Option<Picture>,
    sized: [bool; 2],
}

/// The sheet that a text of CSS says, or a line and why there is none.
pub fn read(text: &str) -> Result<String, Wrong> {
    let rules = rules(text)?;
    let has = |rule: &Vec<Declaration>, words: &[&str]| rule.iter().any(|one| words.contains(&one.property.as_str()));
    let none = !rules.iter().any(|rule| has(rule, PANEL));
    let of_panel = |rule: &&Vec<Declaration>| has(rule, PANEL) || none && !has(rule, ITEM);
    let mut panels = rules.iter().filter(of_panel);
    let mut reading = Reading { sheet: Sheet::empty(), picture: None, sized: [false, false] };
    let panel = panels.next();
    for declaration in panel.into_iter().flatten() {
        reading.panel(declaration)?;
    }
    if let Some(second) = panels.next().and_then(|rule| rule.first()) {
        return Err((second.line, "a sheet has one grid, and this rule is a second one".to_string()));
    }
    for rule in rules.iter().filter(|rule| !of_panel(rule)) {
        reading.item(rule)?;
    }
    reading.finished()
}

/// The axis whose property it is, by the word in it.
fn axis_of(property: &str) -> Axis {
    if property.contains("row") || property.contains("height") {
        Axis::Rows
    } else {
        Axis::Columns
    }
}

/// Grid properties that a sheet has no word for.
fn unsaid(declaration: &Declaration) -> Result<(), Wrong> {
    let property = &declaration.property;
    let known = PANEL.contains(&property.as_str()) || ITEM.contains(&property.as_str());
    let words = || format!("a sheet can't say {property}");
    if (property.starts_with("grid") || property == "box-sizing") && !known {
        Err((declaration.line, words()))
    } else {
        Ok(())
    }
}

impl Reading {
    fn axis(&mut self, axis: Axis) -> &mut AxisSheet {
        &mut self.sheet.axes[axis as usize]
    }

    /// A declaration of the panel.
    fn panel(&mut self, declaration: &Declaration) -> Result<(), Wrong> {
        unsaid(declaration)?;
        let (property, mut value) = (declaration.property.as_str(), Value::of(declaration));
        let axis = axis_of(property);
        match property {
            "display" if !value.is_word("grid") && !value.is_word("inline-grid") => return Err(value.wrong("a panel is a grid")),
            "grid-template-columns" | "grid-template-rows" if value.is_word("none") => self.axis(axis).template = vec![],
            "grid-template-columns" | "grid-template-rows" => self.axis(axis).template = value.template(false)?,
            "grid-template-areas" if value.is_word("none") => self.picture = None,
            "grid-template-areas" => self.picture = Some(css_areas::read(&mut value)?),
            "grid-auto-columns" | "grid-auto-rows" => self.axis(axis).spares = value.tracks()?,
            "gap" => self.gaps(&mut value)?,
            "row-gap" | "column-gap" => self.axis(axis).gap = gap(&mut value)?,
            "--extra-columns" | "--extra-rows" => self.axis(axis).extra = (count(&mut value)?, count(&mut value)?),
            "--item-columns" | "--item-rows" => self.items(axis, &mut value)?,
            "width" | "height" | "max-width" | "max-height" | "min-width" | "min-height" => self.size(declaration, axis)?,
            "grid-column" | "grid-row" => return Err(value.wrong("stands in the rule of the panel; a panel in a panel is not read")),
            _ => {}
        }
        let passed_over = !property.contains("gap") && !property.starts_with("--extra");
        if passed_over {
            Ok(())
        } else {
            value.end()
        }
    }

    fn gaps(&mut self, value: &mut Value) -> Result<(), Wrong> {
        let rows = gap(value)?;
        let columns = if value.ended() { rows } else { gap(value)? };
        (self.axis(Axis::Rows).gap, self.axis(Axis::Columns).gap) = (rows, columns);
        Ok(())
    }

    fn items(&mut self, axis: Axis, value: &mut Value) -> Result<(), Wrong> {
        while !value.ended() {
            let index = count(value)?;
            self.axis(axis).items.push((0, index));
        }
        Ok(())
    }

    /// The inner size of an axis, by one of its properties.
    fn size(&mut self, declaration: &Declaration, axis: Axis) -> Result<(), Wrong> {
        let mut value = Value::of(declaration);
        if ["auto", "none", "max-content", "min-content", "fit-content"].iter().any(|word| value.is_word(word)) {
            return Ok(());
        }
        let Size::Length(inner) = value.fixed()? else {
            return Err((declaration.line, format!("{}: an inner size is a length in px", declaration.property)));
        };
        value.end()?;
        if std::mem::replace(&mut self.sized[axis as usize], true) {
            return Err((
                declaration.line,
                format!("{}: a sheet has one size for an axis, and one stands before it", declaration.property),
            ));
        }
        let axis = self.axis(axis);
        (axis.inner, axis.minimum) = (Some(inner), declaration.property.starts_with("min-"));
        Ok(())
    }

    /// A rule of an item: its column, then its row.
    fn item(&mut self, rule: &[Declaration]) -> Result<(), Wrong> {
        for declaration in rule {
            unsaid(declaration)?;
        }
        for property in ITEM {
            if let Some(declaration) = rule.iter().rev().find(|one| one.property == *property) {
                let (start, end) = Value::of(declaration).placement()?;
                self.sheet.places.push(Place { line: 0, axis: axis_of(property), start, end });
            }
        }
        Ok(())
    }

    /// The sheet as text, which the library has to accept: areas by their edges, or by rows where dots make the grid larger.
    fn finished(mut self) -> Result<String, Wrong> {
        let Some(picture) = self.picture else { return Ok(accepted(&self.sheet)?.0) };
        self.sheet.areas = picture.areas.clone();
        let (text, answer) = accepted(&self.sheet)?;
        if is_covered(&answer, &picture) {
            return Ok(text);
        }
        self.sheet.picture = picture.rows;
        Ok(accepted(&self.sheet)?.0)
    }
}

/// A sheet as text, and the library's answer to it.
fn accepted(sheet: &Sheet) -> Result<(String, Answer), Wrong> {
    let text = sheet.write();
    match Answer::read(text.as_bytes()) {
        Ok(answer) => Ok((text, answer)),
        Err(refusal) => Err((0, format!("the sheet would be refused, at its {}", faults::words(text.as_bytes(), refusal)))),
    }
}

fn is_covered(answer: &Answer, picture: &Picture) -> bool {
    let explicit = |axis: Axis| answer.axis(axis).lines.explicit as usize;
    explicit(Axis::Rows) >= picture.rows.len() && explicit(Axis::Columns) >= picture.columns()
}

fn gap(value: &mut Value) -> Result<Size, Wrong> {
    value.fixed()
}

fn count(value: &mut Value) -> Result<u32, Wrong> {
    u32::try_from(value.whole()?).map_err(|_| value.wrong("a count is 0 or more"))
}
