//! Many records for one command: those that were named, what is told of each, and at the end what there was.

mod cores;
mod demands;
mod doubles;
mod few;
mod folder;
mod looked;
mod named;
mod natural;
mod progress;
mod summary;
mod telling;
mod writing;

pub use demands::{EXPECT, STRICT};
pub use named::RECURSIVE;
pub use telling::{Layout, Teller, Told};

use crate::ending::{Ending, Failure};
use crate::words::Words;
use demands::Demands;
use looked::Looked;
use named::Records;
use summary::Summary;
use writing::Writing;

/// Reads all records that were named, on all cores, and tells of each in the order in which they were named.
pub fn told(words: &Words, teller: &impl Teller) -> Result<Ending, Failure> {
    let demands = Demands::asked(words)?;
    let Records { all, passed_over, .. } = Records::named(words)?;
    let mut writing = Writing::begun(teller, all.len())?;
    let mut summary = Summary::default();
    let take = |looked: Looked| {
        summary.count(&looked, |number| all[number].source.name());
        writing.take(looked.told)
    };
    cores::in_order(all.len(), |number| Looked::at(&all[number], teller), take)?;
    let remarks = [passed_over.remarks(), summary.remarks()].concat();
    let unmet = demands.unmet(summary.read(), !remarks.is_empty());
    let ending = if unmet.is_empty() { summary.ending } else { Ending::Failed };
    writing.end(&[vec![summary.line(&teller.by())], remarks, unmet].concat())?;
    Ok(ending)
}
