//! What an event sees, in ranges: `0..5 7` is 0 to 5, with both, and 7.

use super::names::is_nothing;
use crate::text::{Bad, Word};
use gcr::{VisibleSet, EVENTS_MOST};

const TO: &str = "..";

/// No record has an event above it.
const LAST: u64 = EVENTS_MOST as u64 - 1;

/// The fewest ranges, rising. Nothing where nothing is seen.
pub fn written(seen: &VisibleSet) -> String {
    let mut ranges: Vec<(u16, u16)> = Vec::new();
    for event in seen.iter() {
        match ranges.last_mut() {
            Some((_, last)) if *last + 1 == event => *last = event,
            _ => ranges.push((event, event)),
        }
    }
    let range = |&(first, last): &(u16, u16)| match first == last {
        true => first.to_string(),
        false => format!("{first}{TO}{last}"),
    };
    ranges.iter().map(range).collect::<Vec<_>>().join(" ")
}

/// Events that stand together in a cell, with both ends.
pub struct Range<'a> {
    pub word: Word<'a>,
    pub first: u16,
    pub last: u16,
}

/// Ranges in any order; what stands in two of them is seen.
pub fn read(cell: Word) -> Result<VisibleSet, Bad> {
    parts(cell)?.iter().try_fold(VisibleSet::none(), |seen, range| {
        let all = (range.first..=range.last).try_fold(seen, VisibleSet::with);
        all.ok_or_else(|| range.word.bad("no record has such events"))
    })
}

/// The ranges as they stand in the cell.
pub fn parts(cell: Word) -> Result<Vec<Range>, Bad> {
    if is_nothing(&cell) {
        return Ok(Vec::new());
    }
    cell.words().into_iter().map(part).collect()
}

fn part(word: Word) -> Result<Range, Bad> {
    let Some((first, last)) = word.split(TO) else {
        let event = event(word, &format!("0 to {LAST}, or a range as 0{TO}5"))?;
        return Ok(Range { word, first: event, last: event });
    };
    let may_be = format!("0 to {LAST}");
    let (first, last) = (event(first, &may_be)?, event(last, &may_be)?);
    match first <= last {
        true => Ok(Range { word, first, last }),
        false => Err(word.bad(format!("the range {} ends before it begins", word.shown()))),
    }
}

fn event(word: Word, may_be: &str) -> Result<u16, Bad> {
    word.at_most(LAST).map(|event| event as u16).ok_or_else(|| word.beyond("seen event", may_be))
}

#[cfg(test)]
mod tests {
    use super::*;

    fn read_of(text: &str) -> Result<Vec<u16>, String> {
        let cell = Word { line: 4, column: 10, text };
        read(cell).map(|seen| seen.iter().collect()).map_err(|bad| bad.to_string())
    }

    #[test]
    fn ranges_have_both_ends() {
        assert_eq!(read_of("0..3 7  383"), Ok(vec![0, 1, 2, 3, 7, 383]));
        assert_eq!(read_of("7 5..5 4..6"), Ok(vec![4, 5, 6, 7]));
        assert_eq!(read_of("0..383").map(|seen| seen.len()), Ok(384));
        assert_eq!((read_of(""), read_of("-")), (Ok(vec![]), Ok(vec![])));
    }

    #[test]
    fn a_range_that_is_wrong_has_its_own_place() {
        for (text, column, what) in [
            ("0 384", 12, "384, and may be 0 to 383, or a range as 0..5"),
            ("0 3..384", 15, "384, and may be 0 to 383"),
            ("0 ..3", 12, "missing, and may be 0 to 383"),
            ("3..", 13, "missing, and may be 0 to 383"),
            ("1...3", 13, ".3, and may be a whole number from 0 to 383"),
            ("1-3", 10, "1-3, and may be a whole number from 0 to 383, or a range as 0..5"),
            ("#REF!", 10, "#REF!, and may be a whole number from 0 to 383, or a range as 0..5"),
            ("0 #N/A", 12, "#N/A, and may be a whole number from 0 to 383, or a range as 0..5"),
            ("0#0", 10, "0#0, and may be a whole number from 0 to 383, or a range as 0..5"),
        ] {
            assert_eq!(read_of(text), Err(format!("line 4, column {column}: the seen event is {what}")), "{text}");
        }
        assert_eq!(read_of("0 5..4"), Err("line 4, column 12: the range 5..4 ends before it begins".to_string()));
    }

    #[test]
    fn written_ranges_are_the_fewest() {
        let written = |seen: &[u16]| written(&seen.iter().copied().collect());
        assert_eq!(written(&[]), "");
        assert_eq!(written(&[0, 1, 2, 4, 6, 7, 383]), "0..2 4 6..7 383");
        assert_eq!(written(&(0..384).collect::<Vec<_>>()), "0..383");
    }
}
