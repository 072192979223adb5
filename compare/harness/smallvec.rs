//! Stand-in for the crate smallvec: the few forms that named.rs uses, over `Vec`.

/// A growing list; the real crate keeps short lists inline, which no answer shows.
#[derive(Debug, Clone)]
pub struct SmallVec<A: Array>(Vec<A::Item>);

/// An array type names its items.
pub trait Array {
    type Item;
}

impl<T, const N: usize> Array for [T; N] {
    type Item = T;
}

impl<A: Array> From<Vec<A::Item>> for SmallVec<A> {
    fn from(items: Vec<A::Item>) -> Self {
        Self(items)
    }
}

impl<A: Array> SmallVec<A> {
    pub fn as_slice(&self) -> &[A::Item] {
        &self.0
    }
}

impl<A: Array> std::ops::Deref for SmallVec<A> {
    type Target = Vec<A::Item>;
    fn deref(&self) -> &Self::Target {
        &self.0
    }
}

impl<A: Array> std::ops::DerefMut for SmallVec<A> {
    fn deref_mut(&mut self) -> &mut Self::Target {
        &mut self.0
    }
}

impl<A: Array> PartialEq for SmallVec<A>
where
    A::Item: PartialEq,
{
    fn eq(&self, other: &Self) -> bool {
        self.0 == other.0
    }
}

impl<'a, A: Array> IntoIterator for &'a SmallVec<A> {
    type Item = &'a A::Item;
    type IntoIter = std::slice::Iter<'a, A::Item>;
    fn into_iter(self) -> Self::IntoIter {
        self.0.iter()
    }
}

#[macro_export]
macro_rules! smallvec {
    ($($item:expr),*) => { $crate::SmallVec::from(vec![$($item),*]) };
}
