//! Direct entries: the Rust has no such call, so this child module of named.rs makes one
//! from its private parts, just as `NamedLineResolver::new` does for a written name.
use super::{upsert_line_name_map, NamedLineResolver};
use crate::style::GridAreaAxis;

impl NamedLineResolver<String> {
    /// Add a name on a line, then sort and dedup the lines of that name.
    pub(crate) fn enter(&mut self, axis: GridAreaAxis, line: u32, name: &str) {
        let (lines, pairs) = match axis {
            GridAreaAxis::Column => (&mut self.column_lines, &mut self.column_line_name_pairs),
            GridAreaAxis::Row => (&mut self.row_lines, &mut self.row_line_name_pairs),
        };
        pairs.push((line, name.to_string()));
        upsert_line_name_map(lines, &mut self.areas, axis, name.to_string(), line);
        let own = lines.get_mut(name).unwrap();
        own.sort_unstable();
        own.dedup();
    }

    /// The number of name entries on an axis, repeats written out and direct entries included.
    pub(crate) fn entry_count(&self, axis: GridAreaAxis) -> usize {
        match axis {
            GridAreaAxis::Column => self.column_line_name_pairs.len(),
            GridAreaAxis::Row => self.row_line_name_pairs.len(),
        }
    }
}
