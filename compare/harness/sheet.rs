//! Reads a well-formed panel sheet into a real `Style` and what stands beside it.
//! It refuses nothing: the model judges refusals, and only sheets that it can read are asked.
use crate::compute::grid::GridLine;
use crate::geometry::{AbsoluteAxis, Line, Size};
use crate::style::*;
use std::collections::HashSet;

/// What a sheet says of one axis.
pub(crate) struct AxisInput {
    pub(crate) inner: Option<f32>,
    pub(crate) rule_is_min: bool,
    pub(crate) negative: u16,
    pub(crate) positive: u16,
    pub(crate) items: HashSet<usize>,
    gap: LengthPercentage,
    components: Vec<GridTemplateComponent<String>>,
    names: Vec<Vec<String>>,
    open: Option<GridTemplateRepetition<String>>,
    spares: Vec<TrackSizingFunction>,
}

/// A placement, with its axis.
pub(crate) type Placement = (AbsoluteAxis, Line<GridPlacement<String>>);

/// A sheet: the style for the Rust functions, and the arguments that are no style.
pub(crate) struct Input {
    pub(crate) style: PanelStyle,
    /// The style with raised sizes, for the number of repetitions alone.
    pub(crate) raised: PanelStyle,
    pub(crate) columns: AxisInput,
    pub(crate) rows: AxisInput,
    pub(crate) placements: Vec<Placement>,
}

impl Input {
    pub(crate) fn axis(&self, axis: AbsoluteAxis) -> &AxisInput {
        match axis {
            AbsoluteAxis::Horizontal => &self.columns,
            AbsoluteAxis::Vertical => &self.rows,
        }
    }

    pub(crate) fn axis_mut(&mut self, axis: AbsoluteAxis) -> &mut AxisInput {
        match axis {
            AbsoluteAxis::Horizontal => &mut self.columns,
            AbsoluteAxis::Vertical => &mut self.rows,
        }
    }
}

impl AxisInput {
    fn new() -> Self {
        Self {
            inner: None,
            rule_is_min: false,
            negative: 0,
            positive: 0,
            items: HashSet::new(),
            gap: LengthPercentage(CompactLength::length(0.0)),
            components: Vec::new(),
            names: vec![Vec::new()],
            open: None,
            spares: Vec::new(),
        }
    }

    /// `axis`: inner size, rule, gap.
    fn set(&mut self, fields: &[&str]) {
        self.inner = if fields[0] == "-" { None } else { Some(number_of_bits(fields[0])) };
        self.rule_is_min = fields[1] == "min";
        self.gap = LengthPercentage(sizing(fields[2], fields[3]));
    }

    /// A track joins the open repeat, or is a component.
    fn add_track(&mut self, track: TrackSizingFunction) {
        match &mut self.open {
            Some(repeat) => {
                repeat.tracks.push(track);
                repeat.line_names.push(Vec::new());
            }
            None => self.add_component(GridTemplateComponent::Single(track)),
        }
    }

    /// Each component is followed by a set of names.
    fn add_component(&mut self, component: GridTemplateComponent<String>) {
        self.components.push(component);
        self.names.push(Vec::new());
    }

    fn add_name(&mut self, name: &str) {
        let sets = match &mut self.open {
            Some(repeat) => &mut repeat.line_names,
            None => &mut self.names,
        };
        sets.last_mut().unwrap().push(name.to_string());
    }

    fn open_repeat(&mut self, count: &str) {
        let count = match count {
            "fill" => RepetitionCount::AutoFill,
            "fit" => RepetitionCount::AutoFit,
            written => RepetitionCount::Count(written.parse().unwrap()),
        };
        self.open = Some(GridTemplateRepetition { count, tracks: Vec::new(), line_names: vec![Vec::new()] });
    }

    fn close_repeat(&mut self) {
        let repeat = self.open.take().unwrap();
        self.add_component(GridTemplateComponent::Repeat(repeat));
    }
}

/// The value whose bits are written in eight hexadecimal digits.
pub(crate) fn number_of_bits(field: &str) -> f32 {
    f32::from_bits(u32::from_str_radix(field, 16).unwrap())
}

fn sizing(kind: &str, value: &str) -> CompactLength {
    let value = number_of_bits(value);
    match kind {
        "len" => CompactLength::length(value),
        "pct" => CompactLength::percent(value),
        "fr" => CompactLength::fr(value),
        "auto" => CompactLength::auto(),
        "min" => CompactLength::min_content(),
        "max" => CompactLength::max_content(),
        "fitl" => CompactLength::fit_content_px(value),
        "fitp" => CompactLength::fit_content_percent(value),
        _ => panic!("no such kind"),
    }
}

fn track(fields: &[&str]) -> TrackSizingFunction {
    TrackSizingFunction {
        min: MinTrackSizingFunction(sizing(fields[0], fields[1])),
        max: MaxTrackSizingFunction(sizing(fields[2], fields[3])),
    }
}

/// Document 02, Req 05: inside the automatic repeat, each track below 1 is taken as 1 while counting repetitions.
fn raised_track(track: TrackSizingFunction, inner: f32) -> TrackSizingFunction {
    let max = track.max.definite_value(Some(inner), |_, _| 0.0);
    let min = track.min.definite_value(Some(inner), |_, _| 0.0);
    let measure = max.map(|max| min.map_or(max, |min| max.max(min))).or(min);
    if measure.is_none_or(|measure| measure >= 1.0) {
        return track;
    }
    let one = CompactLength::length(1.0);
    TrackSizingFunction { min: MinTrackSizingFunction(one), max: MaxTrackSizingFunction(one) }
}

/// A template with the tracks of its automatic repeat raised; without an inner size there is nothing to measure.
fn raised(components: &[GridTemplateComponent<String>], inner: Option<f32>) -> Vec<GridTemplateComponent<String>> {
    let mut components = components.to_vec();
    for component in &mut components {
        if let (GridTemplateComponent::Repeat(repeat), Some(inner)) = (component, inner) {
            if matches!(repeat.count, RepetitionCount::AutoFill | RepetitionCount::AutoFit) {
                repeat.tracks.iter_mut().for_each(|track| *track = raised_track(*track, inner));
            }
        }
    }
    components
}

fn area(fields: &[&str]) -> GridTemplateArea<String> {
    let edge = |at: usize| fields[at].parse().unwrap();
    GridTemplateArea {
        name: fields[0].to_string(),
        row_start: edge(1),
        row_end: edge(2),
        column_start: edge(3),
        column_end: edge(4),
    }
}

/// A row of a picture, numbered from 0: each name's area is around all its cells, areas in order of first cell.
fn draw_row(areas: &mut Vec<GridTemplateArea<String>>, row: u16, words: &[&str]) {
    for (column, word) in (1..).zip(words) {
        if word.bytes().all(|byte| byte == b'.') {
            continue;
        }
        match areas.iter_mut().find(|area| area.name == *word) {
            Some(area) => {
                area.row_end = row + 2;
                area.column_start = area.column_start.min(column);
                area.column_end = area.column_end.max(column + 1);
            }
            None => areas.push(GridTemplateArea {
                name: word.to_string(),
                row_start: row + 1,
                row_end: row + 2,
                column_start: column,
                column_end: column + 1,
            }),
        }
    }
}

/// An end by its kind, name and number.
pub(crate) fn placement(fields: &[&str]) -> GridPlacement<String> {
    let (name, number) = (fields[1].to_string(), fields[2]);
    match fields[0] {
        "auto" => GridPlacement::Auto,
        "line" => GridPlacement::Line(GridLine::from(number.parse::<i16>().unwrap())),
        "named" => GridPlacement::NamedLine(name, number.parse().unwrap()),
        "span" => GridPlacement::Span(number.parse().unwrap()),
        "nspan" => GridPlacement::NamedSpan(name, number.parse().unwrap()),
        _ => panic!("no such kind"),
    }
}

/// Read a sheet.
pub(crate) fn read(text: &str) -> Input {
    let mut columns = AxisInput::new();
    let mut rows = AxisInput::new();
    let mut areas = Vec::new();
    let mut picture = None;
    let mut placements = Vec::new();
    for line in text.lines() {
        let fields: Vec<&str> = line.split('\t').collect();
        if fields[0] == "area" {
            areas.push(area(&fields[1..]));
            continue;
        }
        if fields[0] == "row" {
            let drawn = picture.map_or(0, |(rows, _)| rows);
            draw_row(&mut areas, drawn, &fields[1..]);
            picture = Some((drawn + 1, (fields.len() - 1) as u16));
            continue;
        }
        let (axis, input) = match fields[1] {
            "c" => (AbsoluteAxis::Horizontal, &mut columns),
            "r" => (AbsoluteAxis::Vertical, &mut rows),
            _ => panic!("no such axis"),
        };
        let rest = &fields[2..];
        match fields[0] {
            "axis" => input.set(rest),
            "name" => input.add_name(rest[0]),
            "track" => input.add_track(track(rest)),
            "repeat" => input.open_repeat(rest[0]),
            "end" => input.close_repeat(),
            "spare" => input.spares.push(track(rest)),
            "extra" => {
                input.negative = rest[0].parse().unwrap();
                input.positive = rest[1].parse().unwrap();
            }
            "item" => {
                input.items.insert(rest[0].parse().unwrap());
            }
            "place" => {
                placements.push((axis, Line { start: placement(&rest[..3]), end: placement(&rest[3..]) }));
            }
            _ => panic!("no such record"),
        }
    }
    let style = PanelStyle::new(&mut columns, &mut rows, areas, picture);
    let raised = style.raised(columns.inner, rows.inner);
    Input { style, raised, columns, rows, placements }
}

/// Calls that go to the style within.
macro_rules! of_the_style_within {
    () => {
        type Repetition<'a> = <Style<String> as GridContainerStyle>::Repetition<'a>;
        type TemplateTrackList<'a> = <Style<String> as GridContainerStyle>::TemplateTrackList<'a>;
        type AutoTrackList<'a> = <Style<String> as GridContainerStyle>::AutoTrackList<'a>;
        type TemplateLineNames<'a> = <Style<String> as GridContainerStyle>::TemplateLineNames<'a>;
        type GridTemplateAreas<'a> = <Style<String> as GridContainerStyle>::GridTemplateAreas<'a>;
        fn grid_template_rows(&self) -> Option<Self::TemplateTrackList<'_>> {
            GridContainerStyle::grid_template_rows(&self.0)
        }
        fn grid_template_columns(&self) -> Option<Self::TemplateTrackList<'_>> {
            GridContainerStyle::grid_template_columns(&self.0)
        }
        fn grid_auto_rows(&self) -> Self::AutoTrackList<'_> {
            GridContainerStyle::grid_auto_rows(&self.0)
        }
        fn grid_auto_columns(&self) -> Self::AutoTrackList<'_> {
            GridContainerStyle::grid_auto_columns(&self.0)
        }
        fn grid_template_areas(&self) -> Option<Self::GridTemplateAreas<'_>> {
            GridContainerStyle::grid_template_areas(&self.0)
        }
        fn grid_template_column_names(&self) -> Option<Self::TemplateLineNames<'_>> {
            GridContainerStyle::grid_template_column_names(&self.0)
        }
        fn grid_template_row_names(&self) -> Option<Self::TemplateLineNames<'_>> {
            GridContainerStyle::grid_template_row_names(&self.0)
        }
        fn gap(&self) -> Size<LengthPercentage> {
            GridContainerStyle::gap(&self.0)
        }
    };
}

/// A `Style` whose areas' extent is read by the defaults of the trait, as document 01 asks;
/// every other call goes to the `Style` within.
struct DrawnStyle(Style<String>);

impl CoreStyle for DrawnStyle {
    type CustomIdent = String;
}

impl GridContainerStyle for DrawnStyle {
    of_the_style_within! {}
}

/// The same, but that the rows of a picture and its width are given as the areas' counts (document 02, Req 07).
pub(crate) struct PanelStyle(DrawnStyle, Option<(u16, u16)>);

impl PanelStyle {
    fn new(columns: &mut AxisInput, rows: &mut AxisInput, areas: Vec<GridTemplateArea<String>>, picture: Option<(u16, u16)>) -> Self {
        let style = Style {
            gap: Size { width: columns.gap, height: rows.gap },
            grid_template_columns: std::mem::take(&mut columns.components),
            grid_template_rows: std::mem::take(&mut rows.components),
            grid_template_column_names: std::mem::take(&mut columns.names),
            grid_template_row_names: std::mem::take(&mut rows.names),
            grid_auto_columns: std::mem::take(&mut columns.spares),
            grid_auto_rows: std::mem::take(&mut rows.spares),
            grid_template_areas: Some(GridTemplateAreas { areas, row_count: 0, column_count: 0 }),
            ..Style::DEFAULT
        };
        Self(DrawnStyle(style), picture)
    }

    fn raised(&self, columns: Option<f32>, rows: Option<f32>) -> Self {
        let style = &self.0 .0;
        let raised = Style {
            grid_template_columns: raised(&style.grid_template_columns, columns),
            grid_template_rows: raised(&style.grid_template_rows, rows),
            ..style.clone()
        };
        Self(DrawnStyle(raised), self.1)
    }
}

impl CoreStyle for PanelStyle {
    type CustomIdent = String;
}

impl GridContainerStyle for PanelStyle {
    of_the_style_within! {}

    fn grid_template_area_row_count(&self) -> u16 {
        self.1.map_or_else(|| self.0.grid_template_area_row_count(), |(rows, _)| rows)
    }
    fn grid_template_area_column_count(&self) -> u16 {
        self.1.map_or_else(|| self.0.grid_template_area_column_count(), |(_, columns)| columns)
    }
}
