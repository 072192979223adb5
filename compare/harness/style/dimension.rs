//! Stand-in: the three length types, each over the unchanged `CompactLength`.
use super::CompactLength;
use crate::style_helpers::{FromLength, FromPercent, TaffyAuto, TaffyZero};

macro_rules! over_compact_length {
    ($($name:ident),*) => { $(
        #[derive(Copy, Clone, PartialEq, Debug)]
        pub struct $name(pub(crate) CompactLength);

        impl TaffyZero for $name {
            const ZERO: Self = Self(CompactLength::ZERO);
        }
        impl FromLength for $name {
            fn from_length<Input: Into<f64> + Copy>(value: Input) -> Self {
                Self(CompactLength::length(value.into() as f32))
            }
        }
        impl FromPercent for $name {
            fn from_percent<Input: Into<f64> + Copy>(value: Input) -> Self {
                Self(CompactLength::percent(value.into() as f32))
            }
        }
    )* };
}

over_compact_length!(Dimension, LengthPercentage, LengthPercentageAuto);

impl TaffyAuto for Dimension {
    const AUTO: Self = Self(CompactLength::AUTO);
}
impl TaffyAuto for LengthPercentageAuto {
    const AUTO: Self = Self(CompactLength::AUTO);
}

/// Named by style/mod.rs; nothing here makes one.
pub enum ExpandedDimension {}
pub enum ExpandedLengthPercentage {}
pub enum ExpandedLengthPercentageAuto {}
