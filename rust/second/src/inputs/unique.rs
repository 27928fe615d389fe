//! A list that takes each item once and keeps the order of arrival.

use std::collections::HashSet;
use std::hash::Hash;

pub struct Unique<T> {
    seen: HashSet<T>,
    items: Vec<T>,
}

impl<T> Default for Unique<T> {
    fn default() -> Unique<T> {
        Unique {
            seen: HashSet::new(),
            items: Vec::new(),
        }
    }
}

impl<T: Copy + Eq + Hash> Unique<T> {
    /// Adds `item` unless it is there already.
    pub fn add(&mut self, item: T) {
        if self.seen.insert(item) {
            self.items.push(item);
        }
    }

    pub fn into_items(self) -> Vec<T> {
        self.items
    }
}
