//! A set kept as a sorted vector. At most 128 orders are live, so moving a few hundred bytes beats
//! chasing pointers.

pub struct Sorted<T> {
    items: Vec<T>,
}

impl<T> Default for Sorted<T> {
    fn default() -> Self {
        Sorted { items: Vec::new() }
    }
}

impl<T: Ord + Copy> Sorted<T> {
    pub fn insert(&mut self, item: T) {
        if let Err(place) = self.items.binary_search(&item) {
            self.items.insert(place, item);
        }
    }

    pub fn remove(&mut self, item: &T) {
        if let Ok(place) = self.items.binary_search(item) {
            self.items.remove(place);
        }
    }

    pub fn first(&self) -> Option<T> {
        self.items.first().copied()
    }

    pub fn iter(&self) -> impl Iterator<Item = &T> {
        self.items.iter()
    }

    pub fn len(&self) -> usize {
        self.items.len()
    }

    /// Puts the items in order again after their keys have changed.
    pub fn refill(&mut self, items: impl Iterator<Item = T>) {
        self.items.clear();
        self.items.extend(items);
        self.items.sort_unstable();
    }
}
