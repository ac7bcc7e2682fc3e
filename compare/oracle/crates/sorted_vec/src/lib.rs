//! Stand-in for `sorted_vec`: a set kept as a strictly rising `Vec` (the x and z sets of a Pauli).
use std::ops::Deref;

#[derive(Clone, Debug, PartialEq, Eq, Hash, Default)]
pub struct SortedSet<T: Ord> {
    items: Vec<T>,
}

/// Where an item was found, or where it was put.
pub enum FindOrInsert {
    Found(usize),
    Inserted(usize),
}

impl FindOrInsert {
    pub fn is_found(&self) -> bool {
        matches!(self, Self::Found(_))
    }
    pub fn index(&self) -> usize {
        match self {
            Self::Found(index) | Self::Inserted(index) => *index,
        }
    }
}

impl<T: Ord> SortedSet<T> {
    pub fn new() -> Self {
        Self { items: Vec::new() }
    }
    /// # Safety
    /// The caller says that the items rise strictly.
    pub unsafe fn from_sorted(items: Vec<T>) -> Self {
        debug_assert!(items.is_sorted_by(|a, b| a < b));
        Self { items }
    }
    pub fn from_unsorted(mut items: Vec<T>) -> Self {
        items.sort_unstable();
        items.dedup();
        Self { items }
    }
    pub fn find_or_insert(&mut self, item: T) -> FindOrInsert {
        match self.items.binary_search(&item) {
            Ok(index) => FindOrInsert::Found(index),
            Err(index) => {
                self.items.insert(index, item);
                FindOrInsert::Inserted(index)
            }
        }
    }
    pub fn push(&mut self, item: T) -> usize {
        self.find_or_insert(item).index()
    }
    pub fn remove_index(&mut self, index: usize) -> T {
        self.items.remove(index)
    }
    pub fn remove_item(&mut self, item: &T) -> Option<T> {
        self.items.binary_search(item).ok().map(|index| self.items.remove(index))
    }
    pub fn clear(&mut self) {
        self.items.clear();
    }
}

impl<T: Ord> Deref for SortedSet<T> {
    type Target = Vec<T>;
    fn deref(&self) -> &Vec<T> {
        &self.items
    }
}

impl<T: Ord> From<Vec<T>> for SortedSet<T> {
    fn from(items: Vec<T>) -> Self {
        Self::from_unsorted(items)
    }
}

impl<T: Ord> IntoIterator for SortedSet<T> {
    type Item = T;
    type IntoIter = std::vec::IntoIter<T>;
    fn into_iter(self) -> Self::IntoIter {
        self.items.into_iter()
    }
}

impl<'life, T: Ord> IntoIterator for &'life SortedSet<T> {
    type Item = &'life T;
    type IntoIter = std::slice::Iter<'life, T>;
    fn into_iter(self) -> Self::IntoIter {
        self.items.iter()
    }
}
