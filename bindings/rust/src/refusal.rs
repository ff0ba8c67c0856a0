//! Refusals: the scope's numbers, each with a sentence.

use core::fmt;

/// The one list of them, which C hosts have too.
const LIST: &str = include_str!("../../../include/gcr_refusals.h");

/// Why something was not judged, explained, rehearsed or done.
#[derive(Clone, Copy, PartialEq, Eq, Hash)]
pub struct Refusal {
    /// The question that got the first no.
    pub number: u32,
    /// The block, slot or event that it is about, and 0 where it is about none.
    pub place: u32,
}

impl Refusal {
    /// The refusal in plain words.
    ///
    /// ```
    /// let refusal = gcr::read(&[], &mut [0; gcr::WORK_WORDS]).unwrap_err();
    /// assert_eq!(refusal.sentence(), "The record's length is not a multiple of 512 from 512 to 33,280 bytes.");
    /// ```
    pub fn sentence(&self) -> &'static str {
        let mut entries = LIST.split("\nGCR_REFUSAL(").skip(1);
        entries.find_map(|entry| sentence_in(entry, self.number)).unwrap_or("The scope has no such refusal number.")
    }
}

/// An entry is a number and three quoted texts, the sentence last. None where the entry is another number's.
fn sentence_in(entry: &'static str, number: u32) -> Option<&'static str> {
    let (found, texts) = entry.split_once(',')?;
    let is_it = found.parse() == Ok(number);
    texts.split('"').nth(5).filter(|_| is_it)
}

impl fmt::Display for Refusal {
    fn fmt(&self, f: &mut fmt::Formatter<'_>) -> fmt::Result {
        write!(f, "refused {} {}: {}", self.number, self.place, self.sentence())
    }
}

/// With its sentence, so that an `unwrap` that fails says why.
impl fmt::Debug for Refusal {
    fn fmt(&self, f: &mut fmt::Formatter<'_>) -> fmt::Result {
        let mut fields = f.debug_struct("Refusal");
        fields.field("number", &self.number).field("place", &self.place).field("sentence", &self.sentence()).finish()
    }
}

impl core::error::Error for Refusal {}
