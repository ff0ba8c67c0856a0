//! Which records have the same bytes, told by marks that are short.

use std::collections::hash_map::{Entry, HashMap};

/// 128 bits that the bytes and their number come to. The same bytes have one mark, and others have another: bytes that
/// were not made for it do not come to the same by chance.
#[derive(Clone, Copy, Debug, PartialEq, Eq, Hash)]
pub struct Mark(u128);

/// 2^128 over the golden ratio.
const SPREAD: u128 = 0x9e37_79b9_7f4a_7c15_f39c_c060_5ced_c835;

impl Mark {
    pub fn of(bytes: &[u8]) -> Mark {
        let (words, rest) = bytes.as_chunks();
        let mut last = [0; 16];
        last[..rest.len()].copy_from_slice(rest);
        let whole = words.iter().fold(Mark(SPREAD), |mark, &word| mark.with(u128::from_le_bytes(word)));
        whole.with(u128::from_le_bytes(last)).with(bytes.len() as u128)
    }

    fn with(self, word: u128) -> Mark {
        let spread = (self.0 ^ word).wrapping_mul(SPREAD);
        Mark(spread ^ (spread >> 64))
    }
}

/// The marks that were seen, each with the number of the first record that has it.
#[derive(Default)]
pub struct Doubles {
    first: HashMap<Mark, usize>,
}

impl Doubles {
    /// The record before this one that has its mark, if there is one.
    pub fn earlier(&mut self, number: usize, mark: Mark) -> Option<usize> {
        match self.first.entry(mark) {
            Entry::Occupied(first) => Some(*first.get()),
            Entry::Vacant(free) => {
                free.insert(number);
                None
            }
        }
    }
}

#[cfg(test)]
mod tests {
    use super::*;
    use std::collections::HashSet;

    /// A byte, its place and how many zeros come after it all count.
    #[test]
    fn bytes_that_differ_in_little_have_other_marks() {
        let mut marks = HashSet::new();
        for place in 0..1024 {
            for bit in 0..8 {
                let mut bytes = [0; 1024];
                bytes[place] = 1 << bit;
                assert!(marks.insert(Mark::of(&bytes)));
            }
        }
        assert!((0..1100).all(|length| marks.insert(Mark::of(&vec![0; length]))));
        assert!(!marks.insert(Mark::of(&[0; 1024])));
    }

    #[test]
    fn the_first_of_the_same_is_named() {
        let mut doubles = Doubles::default();
        let [one, other] = [Mark::of(b"one"), Mark::of(b"other")];
        for (number, mark, due) in [(0, one, None), (1, other, None), (2, one, Some(0)), (3, one, Some(0))] {
            assert_eq!(doubles.earlier(number, mark), due);
        }
    }
}
