//! Drives the unchanged functions on one sheet and prints document 01's output.
use super::explicit_grid::{compute_explicit_grid_size_in_axis, initialize_grid_tracks, AutoRepeatStrategy};
use super::types::{GridLine, GridTrack, GridTrackKind, NamedLineResolver, OriginZeroLine, TrackCounts};
use crate::geometry::{AbsoluteAxis, Line};
use crate::sheet::{self, Input, PanelStyle};
use crate::style::{CompactLength, GridAreaAxis, NonNamedGridPlacement};
use std::fmt::Write;

/// What is printed besides document 01's output.
#[derive(Clone, Copy)]
pub(crate) struct Wanted {
    /// The lists of line names.
    pub(crate) names: bool,
    /// The number of name entries on each axis.
    pub(crate) counts: bool,
    /// The crate's own repetitions, its sizes not raised.
    pub(crate) unraised: bool,
}

/// A direct entry: axis, line and name.
pub(crate) type Entry = (AbsoluteAxis, u32, String);

pub(super) const AXES: [AbsoluteAxis; 2] = [AbsoluteAxis::Horizontal, AbsoluteAxis::Vertical];

pub(super) fn letter(axis: AbsoluteAxis) -> char {
    match axis {
        AbsoluteAxis::Horizontal => 'c',
        AbsoluteAxis::Vertical => 'r',
    }
}

pub(super) fn area_axis(axis: AbsoluteAxis) -> GridAreaAxis {
    match axis {
        AbsoluteAxis::Horizontal => GridAreaAxis::Column,
        AbsoluteAxis::Vertical => GridAreaAxis::Row,
    }
}

/// Repetitions and template count of an axis, by the sizes of a style.
pub(super) fn template_size(input: &Input, style: &PanelStyle, axis: AbsoluteAxis) -> (u16, u16) {
    let of_axis = input.axis(axis);
    let strategy = match of_axis.rule_is_min {
        false => AutoRepeatStrategy::MaxRepetitionsThatDoNotOverflow,
        true => AutoRepeatStrategy::MinRepetitionsThatDoOverflow,
    };
    compute_explicit_grid_size_in_axis(style, of_axis.inner, strategy, |_, _| 0.0, axis)
}

/// A resolver with its explicit counts, the larger of template count and areas, and the direct entries.
pub(super) fn resolver(input: &Input, sizes: [(u16, u16); 2], entries: &[Entry]) -> (NamedLineResolver<String>, [u16; 2]) {
    let mut resolver = NamedLineResolver::new(&input.style, sizes[0].0, sizes[1].0);
    let explicit = [sizes[0].1.max(resolver.area_column_count()), sizes[1].1.max(resolver.area_row_count())];
    resolver.set_explicit_column_count(explicit[0]);
    resolver.set_explicit_row_count(explicit[1]);
    for (axis, line, name) in entries {
        resolver.enter(area_axis(*axis), *line, name);
    }
    (resolver, explicit)
}

pub(super) fn records(input: &Input, axis: AbsoluteAxis, explicit: u16, repetitions: u16) -> Vec<GridTrack> {
    let of_axis = input.axis(axis);
    let counts = TrackCounts::from_raw(of_axis.negative, explicit, of_axis.positive);
    let mut tracks = Vec::new();
    let has_item = |index: usize| of_axis.items.contains(&index);
    initialize_grid_tracks(&mut tracks, counts, &input.style, axis, repetitions, has_item);
    tracks
}

fn kind_and_value(size: CompactLength) -> (&'static str, u32) {
    let kind = match size.tag() {
        CompactLength::LENGTH_TAG => "len",
        CompactLength::PERCENT_TAG => "pct",
        CompactLength::FR_TAG => "fr",
        CompactLength::FIT_CONTENT_PX_TAG => "fitl",
        CompactLength::FIT_CONTENT_PERCENT_TAG => "fitp",
        CompactLength::AUTO_TAG => return ("auto", 0),
        CompactLength::MIN_CONTENT_TAG => return ("min", 0),
        CompactLength::MAX_CONTENT_TAG => return ("max", 0),
        _ => panic!("no such kind"),
    };
    (kind, size.value().to_bits())
}

pub(super) fn print_record(out: &mut String, index: usize, track: &GridTrack) {
    let kind = match track.kind {
        GridTrackKind::Track => "track",
        GridTrackKind::Gutter => "gutter",
    };
    let collapsed = if track.is_collapsed { 'y' } else { 'n' };
    let (low_kind, low) = kind_and_value(track.min_track_sizing_function.into_raw());
    let (high_kind, high) = kind_and_value(track.max_track_sizing_function.into_raw());
    writeln!(out, "{index}\t{kind}\t{collapsed}\t{low_kind}\t{low:08x}\t{high_kind}\t{high:08x}").unwrap();
}

fn print_end(out: &mut String, end: NonNamedGridPlacement) {
    match end {
        NonNamedGridPlacement::Auto => write!(out, "\tauto\t0"),
        NonNamedGridPlacement::Line(line) => write!(out, "\tline\t{}", line.as_i16()),
        NonNamedGridPlacement::Span(span) => write!(out, "\tspan\t{span}"),
    }
    .unwrap();
}

pub(super) fn print_placement(out: &mut String, axis: AbsoluteAxis, line: Line<NonNamedGridPlacement>) {
    write!(out, "place\t{}", letter(axis)).unwrap();
    print_end(out, line.start);
    print_end(out, line.end);
    out.push('\n');
}

fn print_names(out: &mut String, axis: AbsoluteAxis, resolver: &NamedLineResolver<String>) {
    let lists = resolver.detailed_line_names(axis);
    for index in 0..lists.line_count() {
        write!(out, "names\t{}\t{}", letter(axis), index + 1).unwrap();
        for name in lists.line(index) {
            write!(out, "\t{name}").unwrap();
        }
        out.push('\n');
    }
}

/// Document 01's output for a sheet after direct entries, and what else is wanted.
pub(crate) fn answer(text: &str, entries: &[Entry], wanted: Wanted) -> String {
    let input = sheet::read(text);
    let counted = if wanted.unraised { &input.style } else { &input.raised };
    let sizes = AXES.map(|axis| template_size(&input, counted, axis));
    let (resolver, explicit) = resolver(&input, sizes, entries);
    let mut out = String::new();
    for (at, axis) in AXES.into_iter().enumerate() {
        writeln!(out, "size\t{}\t{}\t{}", letter(axis), sizes[at].0, explicit[at]).unwrap();
        for (index, track) in records(&input, axis, explicit[at], sizes[at].0).iter().enumerate() {
            print_record(&mut out, index, track);
        }
    }
    for (axis, line) in &input.placements {
        print_placement(&mut out, *axis, resolver.resolve_line_names(line, area_axis(*axis)));
    }
    if wanted.names {
        AXES.into_iter().for_each(|axis| print_names(&mut out, axis, &resolver));
    }
    if wanted.counts {
        for axis in AXES {
            writeln!(out, "entries\t{}\t{}", letter(axis), resolver.entry_count(area_axis(axis))).unwrap();
        }
    }
    out
}

/// Every grid line as an origin-zero line (`panic` where the conversion panics), and every
/// origin-zero line back.
pub(crate) fn conversions(explicit: u16) -> String {
    let mut out = String::new();
    for line in i16::MIN..=i16::MAX {
        match std::panic::catch_unwind(|| GridLine::from(line).into_origin_zero_line(explicit)) {
            Ok(found) => writeln!(out, "to\t{line}\t{}", found.0),
            Err(_) => writeln!(out, "to\t{line}\tpanic"),
        }
        .unwrap();
    }
    for line in -10_000..=10_000 {
        writeln!(out, "back\t{line}\t{}", OriginZeroLine(line).into_grid_line(explicit).as_i16()).unwrap();
    }
    out
}
