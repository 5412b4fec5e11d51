//! A stand-in for the crate of this name: as much of it as the parser uses.

/// A set that keeps the order of first entry. It is searched in turn, since the sets here are small.
#[derive(Debug)]
pub struct IndexSet<T>(Vec<T>);

impl<T> Default for IndexSet<T> {
    fn default() -> Self {
        Self(Vec::new())
    }
}

impl<T: PartialEq> IndexSet<T> {
    pub fn insert(&mut self, value: T) -> bool {
        let new = !self.0.contains(&value);
        if new {
            self.0.push(value);
        }
        new
    }

    pub fn as_slice(&self) -> &[T] {
        &self.0
    }
}

impl<T: PartialEq> Extend<T> for IndexSet<T> {
    fn extend<I: IntoIterator<Item = T>>(&mut self, values: I) {
        for value in values {
            self.insert(value);
        }
    }
}
