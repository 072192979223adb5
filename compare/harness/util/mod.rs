//! Stand-in: the modules that the compared files use.
mod math;
mod resolve;
pub(crate) mod sys;

pub(crate) use math::MaybeMath;
pub(crate) use resolve::ResolveOrZero;
