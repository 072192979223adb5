//! The stages by the calls of the proved library.
use crate::answers::{Answers, End};
use crate::palgwern::{Axis, End as PanelEnd, Panel, Placement, State, LINE_NAME_RUN, PLACEMENT_RUN, RECORD_WORDS};
use std::hint::black_box;

const AXES: [Axis; 2] = [Axis::Columns, Axis::Rows];

/// A panel, room for its records, placements and line names, and the same panel before its names were entered.
pub(crate) struct Ours {
    panel: Panel,
    records: [Vec<u64>; 2],
    numbers: [i32; PLACEMENT_RUN],
    names: [u64; LINE_NAME_RUN],
    nameless: Panel,
    before: State,
    entries: Vec<(Axis, u32, Vec<u8>)>,
}

/// The names of a panel, each with its axis and line.
fn entries(panel: &Panel) -> Vec<(Axis, u32, Vec<u8>)> {
    let named = |axis| panel.line_names(axis).map(move |(line, name)| (axis, line, name.as_bytes().to_vec()));
    AXES.into_iter().flat_map(named).collect()
}

fn end(end: PanelEnd) -> End {
    match end {
        PanelEnd::Auto => (0, 0),
        PanelEnd::Line(line) => (1, line as i32),
        PanelEnd::Span(span) => (3, span as i32),
    }
}

fn placement(placement: Placement) -> (u32, End, End) {
    (placement.axis as u32, end(placement.start), end(placement.end))
}

impl Ours {
    pub(crate) fn new(sheet: &str, nameless: &str) -> Ours {
        let read = |text: &str| Panel::read(text.as_bytes()).unwrap_or_else(|refusal| panic!("{refusal}"));
        let (panel, nameless) = (read(sheet), read(nameless));
        let records = AXES.map(|axis| vec![0; panel.record_count(axis) * RECORD_WORDS]);
        let (numbers, names) = ([0; PLACEMENT_RUN], [0; LINE_NAME_RUN]);
        Ours { entries: entries(&panel), records, numbers, names, before: nameless.state(), panel, nameless }
    }

    /// The stored explicit size of both axes: reading the sheet worked it out.
    pub(crate) fn sizes(&self) {
        for axis in AXES {
            black_box(self.panel.size(black_box(axis)));
        }
    }

    /// Every name entered by a call of its own into the panel without names.
    pub(crate) fn names(&mut self) {
        self.nameless.set_state(self.before);
        for (axis, line, name) in &self.entries {
            self.nameless.enter(*axis, *line, name).unwrap();
        }
    }

    pub(crate) fn placements(&mut self) {
        black_box(self.panel.write_placements(0, &mut self.numbers)).ok();
    }

    pub(crate) fn records(&mut self) {
        for (axis, records) in AXES.into_iter().zip(&mut self.records) {
            black_box(self.panel.write_records(axis, self.panel.items(axis), 0, records)).ok();
        }
    }

    pub(crate) fn line_names(&mut self) {
        for axis in AXES {
            let written = self.panel.write_line_names(axis, &mut self.names).unwrap_or(0);
            self.names[..written].iter().for_each(|word| _ = black_box(self.panel.name_at(axis, *word)));
        }
    }

    /// The sheet read into the same buffers again.
    pub(crate) fn read(&mut self, sheet: &str) {
        black_box(self.panel.read_again(black_box(sheet.as_bytes()))).ok();
    }

    pub(crate) fn entry_count(&self) -> usize {
        self.entries.len()
    }

    pub(crate) fn record_count(&self) -> usize {
        AXES.into_iter().map(|axis| self.panel.record_count(axis)).sum()
    }

    /// What the panel answers.
    pub(crate) fn answers(&mut self) -> Answers {
        self.records();
        answers(&self.panel, &self.records)
    }

    /// What the panel answers whose names were entered by calls.
    pub(crate) fn entered_answers(&mut self) -> Answers {
        self.names();
        answers(&self.nameless, &self.records)
    }
}

/// Of a record's first word its kind and whether it is collapsed.
pub(crate) fn without_sources(mut words: Vec<u64>) -> Vec<u64> {
    words.iter_mut().step_by(RECORD_WORDS).for_each(|word| *word &= 3);
    words
}

fn answers(panel: &Panel, records: &[Vec<u64>; 2]) -> Answers {
    let lists = |axis| {
        let mut lists = vec![vec![]; panel.lists(axis) as usize];
        panel.line_names(axis).for_each(|(line, name)| lists[line as usize - 1].push(name.as_bytes().to_vec()));
        lists
    };
    Answers {
        sizes: AXES.map(|axis| panel.size(axis)).map(|size| (size.repetitions, size.explicit)),
        names: AXES.map(lists),
        placements: panel.resolved().map(placement).collect(),
        records: records.clone().map(without_sources),
    }
}
