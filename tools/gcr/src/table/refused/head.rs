//! Question 5: what no record says beside its events.

use super::super::header::{no_sites, Header, SITES};
use crate::text::Bad;
use gcr::Record;

pub fn why(record: &Record, header: &Header) -> Option<Bad> {
    let is_first = !record.edition.has_terms();
    let sites = header.sites.filter(|said| !SITES.contains(&said.value));
    let clocks = header.clocks.filter(|said| said.value != 0 && is_first);
    let opening = header.opening.filter(|_| is_first);
    let sites = sites.map(|said| no_sites(said.word));
    let clocks = || clocks.map(|said| said.word.beyond("difference of clocks", "only 0 in edition GCR1"));
    let opening = || opening.map(|word| word.bad("edition GCR1 has no openings"));
    sites.or_else(clocks).or_else(opening)
}
