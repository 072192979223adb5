//! Stand-in: the type that math.rs names.

#[derive(Copy, Clone, PartialEq, Debug)]
pub enum AvailableSpace {
    Definite(f32),
    MinContent,
    MaxContent,
}
