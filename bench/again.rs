//! A child module of the bindings: the panel as it stood before, so that the same names can be entered again, and records by implicit
//! counts as C asks for them, without a copy of the buffers.
use super::{raw, Axis, Panel, State};

impl Panel {
    /// Put an earlier state back; the tables hold no more than what it counts.
    pub(crate) fn set_state(&mut self, state: State) {
        (self.answers.grid, self.room) = (state.grid, state.room);
    }

    /// The records of an axis with implicit counts by argument, and the sheet's items; answers how many.
    pub(crate) fn records_with(&self, axis: Axis, negative: u32, positive: u32, records: &mut [u64]) -> usize {
        let items = self.items(axis);
        // SAFETY: as in `write_records`; the grid is the panel's own but for the counts.
        let written = unsafe {
            let given = raw::palgwern_with_implicit(self.answers.grid, axis as u32, negative, positive);
            raw::palgwern_records(
                given.grid, &*self.words, axis as u32, items.as_ptr(), items.len(), 0, records.as_mut_ptr(), records.len(),
            )
        };
        written.count as usize
    }
}
