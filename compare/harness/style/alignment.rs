//! Stand-in: alignment types that `Style` names and no compared function reads.

#[derive(Copy, Clone, PartialEq, Debug)]
pub enum AlignContentKeyword {
    Normal,
    Stretch,
}

#[derive(Copy, Clone, PartialEq, Debug)]
pub struct AlignContent {
    pub keyword: AlignContentKeyword,
}

impl AlignContent {
    pub const NORMAL: Self = Self { keyword: AlignContentKeyword::Normal };
    pub const STRETCH: Self = Self { keyword: AlignContentKeyword::Stretch };
}

#[derive(Copy, Clone, PartialEq, Debug)]
pub enum AlignItemsKeyword {
    Normal,
}

#[derive(Copy, Clone, PartialEq, Debug)]
pub struct AlignItems {
    pub keyword: AlignItemsKeyword,
}

impl AlignItems {
    pub const NORMAL: Self = Self { keyword: AlignItemsKeyword::Normal };
}

#[derive(Copy, Clone, PartialEq, Debug)]
pub enum AlignmentSafety {
    Safe,
}

pub type AlignSelf = AlignItems;
pub type JustifyContent = AlignContent;
pub type JustifyItems = AlignItems;
pub type JustifySelf = AlignItems;
