//! What a panel answers, in one form for both sides.

/// An end of a placement: its kind (0 auto, 1 line, 3 span) and number.
pub(crate) type End = (u32, i32);

/// Everything asked of a panel. Two sides that answer alike have equal values.
#[derive(PartialEq)]
pub(crate) struct Answers {
    /// Repetitions and explicit count of columns and rows.
    pub(crate) sizes: [(u32, u32); 2],
    /// The names of each explicit line of columns and rows.
    pub(crate) names: [Vec<Vec<Vec<u8>>>; 2],
    /// Axis, start and end.
    pub(crate) placements: Vec<(u32, End, End)>,
    /// Three words for each record of columns and rows, as the bindings have them, without the source that the Rust has not.
    pub(crate) records: [Vec<u64>; 2],
}

impl Answers {
    /// The first stage in which two sides differ.
    pub(crate) fn difference(&self, other: &Answers) -> Option<&'static str> {
        let stages = [
            ("sizes", self.sizes == other.sizes),
            ("line names", self.names == other.names),
            ("placements", self.placements == other.placements),
            ("records", self.records == other.records),
        ];
        stages.into_iter().find(|(_, same)| !same).map(|(stage, _)| stage)
    }
}
