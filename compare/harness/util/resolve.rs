//! Stand-in for `resolve_or_zero`, as document 01 reads it for a gap.
use crate::style::{CompactLength, LengthPercentage};

pub(crate) trait ResolveOrZero {
    /// The length, or the fraction times the inner size.
    fn resolve_or_zero(self, inner: Option<f32>, calc: impl Fn(*const (), f32) -> f32) -> f32;
}

impl ResolveOrZero for LengthPercentage {
    fn resolve_or_zero(self, inner: Option<f32>, _calc: impl Fn(*const (), f32) -> f32) -> f32 {
        match self.0.tag() {
            CompactLength::LENGTH_TAG => self.0.value(),
            CompactLength::PERCENT_TAG => inner.map_or(0.0, |size| self.0.value() * size),
            _ => unreachable!("a gap is a length or a percentage"),
        }
    }
}
