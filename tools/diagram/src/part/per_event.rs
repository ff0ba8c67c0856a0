//! Something for each event that is drawn, by the event's number in the record.

use std::ops::Index;

#[derive(Clone, Debug, PartialEq, Eq)]
pub struct PerEvent<T> {
    by_number: Vec<Option<T>>,
}

impl<T> PerEvent<T> {
    /// The events in order, each with its number.
    pub fn iter(&self) -> impl Iterator<Item = (usize, &T)> {
        self.by_number.iter().enumerate().filter_map(|(number, of)| of.as_ref().map(|of| (number, of)))
    }

    pub fn get(&self, number: usize) -> Option<&T> {
        self.by_number.get(number)?.as_ref()
    }

    pub fn count(&self) -> usize {
        self.iter().count()
    }
}

impl<T> FromIterator<(usize, T)> for PerEvent<T> {
    fn from_iter<I: IntoIterator<Item = (usize, T)>>(each: I) -> PerEvent<T> {
        let mut by_number: Vec<Option<T>> = Vec::new();
        for (number, of) in each {
            by_number.resize_with(by_number.len().max(number + 1), || None);
            by_number[number] = Some(of);
        }
        PerEvent { by_number }
    }
}

/// # Panics
///
/// Where the event is not drawn: nothing in a picture leads to or from such a one.
impl<T> Index<usize> for PerEvent<T> {
    type Output = T;

    fn index(&self, number: usize) -> &T {
        self.get(number).expect("the event is drawn")
    }
}
