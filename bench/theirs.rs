//! The stages by the unchanged functions: a child module of the harness's driver, so that it has the same private parts at hand.
use super::{area_axis, kind_and_value, resolver, template_size, AXES};
use crate::answers::{Answers, End};
use crate::compute::grid::explicit_grid::initialize_grid_tracks;
use crate::compute::grid::types::{GridTrack, GridTrackKind, NamedLineResolver, TrackCounts};
use crate::geometry::{AbsoluteAxis, Line};
use crate::sheet::{self, Input};
use crate::style::{CompactLength, NonNamedGridPlacement};
use std::hint::black_box;

/// A style made from a sheet, what its functions answered so far, and room for the records.
pub(crate) struct Theirs {
    input: Input,
    sizes: [(u16, u16); 2],
    explicit: [u16; 2],
    resolver: NamedLineResolver<String>,
    items: [Vec<u8>; 2],
    tracks: [Vec<GridTrack>; 2],
}

/// A byte for each track that there can be, 1 where it holds an item.
fn items(input: &Input, axis: AbsoluteAxis) -> Vec<u8> {
    (0..30_000).map(|track| input.axis(axis).items.contains(&track) as u8).collect()
}

fn end(end: NonNamedGridPlacement) -> End {
    match end {
        NonNamedGridPlacement::Auto => (0, 0),
        NonNamedGridPlacement::Line(line) => (1, line.as_i16() as i32),
        NonNamedGridPlacement::Span(span) => (3, span as i32),
    }
}

fn placement(axis: AbsoluteAxis, line: Line<NonNamedGridPlacement>) -> (u32, End, End) {
    (if axis == AbsoluteAxis::Horizontal { 0 } else { 1 }, end(line.start), end(line.end))
}

/// A size as the bindings' word: its kind's place in this list, and its bits.
fn size_word(size: CompactLength) -> u64 {
    let (kind, value) = kind_and_value(size);
    let kinds = ["len", "pct", "fr", "auto", "min", "max", "fitl", "fitp"];
    (kinds.iter().position(|word| *word == kind).unwrap() as u64) << 32 | value as u64
}

fn record_words(track: &GridTrack) -> [u64; 3] {
    let gutter = (track.kind == GridTrackKind::Gutter) as u64;
    let (low, high) = (track.min_track_sizing_function.into_raw(), track.max_track_sizing_function.into_raw());
    [gutter + 2 * track.is_collapsed as u64, size_word(low), size_word(high)]
}

impl Theirs {
    pub(crate) fn new(text: &str) -> Theirs {
        let input = sheet::read(text);
        let sizes = AXES.map(|axis| template_size(&input, &input.style, axis));
        let (resolver, explicit) = resolver(&input, sizes, &[]);
        let items = AXES.map(|axis| items(&input, axis));
        Theirs { input, sizes, explicit, resolver, items, tracks: [Vec::new(), Vec::new()] }
    }

    pub(crate) fn sizes(&self) {
        for axis in AXES {
            black_box(template_size(black_box(&self.input), &self.input.style, axis));
        }
    }

    /// The size of the columns alone: repetitions and template count.
    pub(crate) fn column_size(&self) -> (u16, u16) {
        black_box(template_size(black_box(&self.input), &self.input.style, AXES[0]))
    }

    /// A resolver with all names of both templates.
    pub(crate) fn names(&self) -> NamedLineResolver<String> {
        NamedLineResolver::new(black_box(&self.input.style), self.sizes[0].0, self.sizes[1].0)
    }

    pub(crate) fn placements(&self) {
        for (axis, line) in &self.input.placements {
            black_box(self.resolver.resolve_line_names(black_box(line), area_axis(*axis)));
        }
    }

    /// The records of both axes, in lists that keep their room.
    pub(crate) fn records(&mut self) {
        for (at, axis) in AXES.into_iter().enumerate() {
            let of_axis = self.input.axis(axis);
            let counts = TrackCounts::from_raw(of_axis.negative, self.explicit[at], of_axis.positive);
            let (tracks, items) = (&mut self.tracks[at], &self.items[at]);
            let has_item = |index: usize| items[index] != 0;
            initialize_grid_tracks(tracks, counts, &self.input.style, axis, self.sizes[at].0, has_item);
            black_box(tracks);
        }
    }

    /// The lists of line names of both axes, and a look at each name.
    pub(crate) fn line_names(&self) -> impl Sized {
        AXES.map(|axis| {
            let lists = black_box(&self.resolver).detailed_line_names(axis);
            for line in 0..lists.line_count() {
                lists.line(line).iter().for_each(|name| _ = black_box(name.as_bytes()));
            }
            lists
        })
    }

    /// One placement with its names resolved.
    pub(crate) fn placement(&self, at: usize) -> Line<NonNamedGridPlacement> {
        let (axis, line) = &self.input.placements[at];
        black_box(self.resolver.resolve_line_names(black_box(line), area_axis(*axis)))
    }

    /// The columns at another inner size: repetitions and count, and a resolver with all names; answers the one before it.
    pub(crate) fn resize(&mut self, inner: f32) -> NamedLineResolver<String> {
        self.input.columns.inner = Some(inner);
        self.sizes[0] = self.column_size();
        let (resolver, explicit) = resolver(&self.input, self.sizes, &[]);
        self.explicit = explicit;
        std::mem::replace(&mut self.resolver, resolver)
    }

    /// The repetitions of the columns and their explicit count.
    pub(crate) fn size_now(&self) -> (u16, u16) {
        (self.sizes[0].0, self.explicit[0])
    }

    /// The records of the columns with other implicit counts; answers how many.
    pub(crate) fn records_with(&mut self, negative: u16, positive: u16) -> usize {
        let counts = TrackCounts::from_raw(black_box(negative), self.explicit[0], black_box(positive));
        let (tracks, items) = (&mut self.tracks[0], &self.items[0]);
        let has_item = |index: usize| items[index] != 0;
        initialize_grid_tracks(tracks, counts, &self.input.style, AXES[0], self.sizes[0].0, has_item);
        black_box(tracks).len()
    }

    /// The records of the columns as they were written last.
    pub(crate) fn column_records(&self) -> Vec<u64> {
        self.tracks[0].iter().flat_map(record_words).collect()
    }

    pub(crate) fn placement_count(&self) -> usize {
        self.input.placements.len()
    }

    /// What the panel answers.
    pub(crate) fn answers(&mut self) -> Answers {
        self.records();
        let placed = |(axis, line): &sheet::Placement| placement(*axis, self.resolver.resolve_line_names(line, area_axis(*axis)));
        let lists = |axis| {
            let lists = self.resolver.detailed_line_names(axis);
            let names = |line| lists.line(line).iter().map(|name| name.as_bytes().to_vec()).collect();
            (0..lists.line_count()).map(names).collect()
        };
        Answers {
            sizes: [0, 1].map(|at| (self.sizes[at].0 as u32, self.explicit[at] as u32)),
            names: AXES.map(lists),
            placements: self.input.placements.iter().map(placed).collect(),
            records: [0, 1].map(|at| self.tracks[at].iter().flat_map(record_words).collect()),
        }
    }
}
