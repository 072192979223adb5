//! Stand-in for the crate smallvec with its one virtue: a short list lies inline and allocates nothing.

/// A list that lies inline while it is as short as the array.
#[derive(Debug, Clone)]
pub enum SmallVec<A: Array> {
    Inline(usize, A),
    Heap(Vec<A::Item>),
}

/// An array type names its items and gives an empty array of them.
pub trait Array: Clone + AsRef<[Self::Item]> + AsMut<[Self::Item]> {
    type Item: Copy + Ord + Default;
    fn empty() -> Self;
}

impl<T: Copy + Ord + Default, const N: usize> Array for [T; N] {
    type Item = T;
    fn empty() -> Self {
        [T::default(); N]
    }
}

impl<A: Array> SmallVec<A> {
    #[inline]
    pub fn of(items: &[A::Item]) -> Self {
        let mut list = SmallVec::Inline(0, A::empty());
        items.iter().for_each(|item| list.push(*item));
        list
    }

    #[inline]
    pub fn push(&mut self, item: A::Item) {
        match self {
            SmallVec::Inline(used, items) if *used < items.as_ref().len() => {
                items.as_mut()[*used] = item;
                *used += 1;
            }
            SmallVec::Inline(used, items) => {
                let mut heap = Vec::with_capacity(2 * *used);
                heap.extend_from_slice(items.as_ref());
                heap.push(item);
                *self = SmallVec::Heap(heap);
            }
            SmallVec::Heap(items) => items.push(item),
        }
    }

    #[inline]
    pub fn as_slice(&self) -> &[A::Item] {
        match self {
            SmallVec::Inline(used, items) => &items.as_ref()[..*used],
            SmallVec::Heap(items) => items,
        }
    }

    #[inline]
    pub fn sort_unstable(&mut self) {
        match self {
            SmallVec::Inline(used, items) => items.as_mut()[..*used].sort_unstable(),
            SmallVec::Heap(items) => items.sort_unstable(),
        }
    }

    #[inline]
    pub fn dedup(&mut self) {
        match self {
            SmallVec::Inline(..) => {
                let mut once = SmallVec::of(&[]);
                self.as_slice().chunk_by(|a, b| a == b).for_each(|same| once.push(same[0]));
                *self = once;
            }
            SmallVec::Heap(items) => items.dedup(),
        }
    }
}

impl<A: Array> PartialEq for SmallVec<A> {
    fn eq(&self, other: &Self) -> bool {
        self.as_slice() == other.as_slice()
    }
}

impl<'a, A: Array> IntoIterator for &'a SmallVec<A> {
    type Item = &'a A::Item;
    type IntoIter = std::slice::Iter<'a, A::Item>;
    fn into_iter(self) -> Self::IntoIter {
        self.as_slice().iter()
    }
}

#[macro_export]
macro_rules! smallvec {
    ($($item:expr),*) => { $crate::SmallVec::of(&[$($item),*]) };
}
