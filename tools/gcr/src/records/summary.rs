//! How many records came to what.

use super::doubles::Doubles;
use super::few::Few;
use super::looked::Looked;
use crate::ending::Ending;

pub struct Summary {
    /// By how they ended: met, broken, refused, not read.
    counts: [usize; 4],
    pub ending: Ending,
    empty: Few,
    doubled: Few,
    doubles: Doubles,
}

impl Default for Summary {
    fn default() -> Summary {
        let (empty, doubled, doubles) = Default::default();
        Summary { counts: [0; 4], ending: Ending::Well, empty, doubled, doubles }
    }
}

impl Summary {
    /// The next record, where those so far have these names.
    pub fn count(&mut self, looked: &Looked, name: impl Fn(usize) -> String) {
        let (number, ending) = (self.all(), looked.ending());
        self.counts[ending as usize] += 1;
        self.ending = self.ending.max(ending);
        let Some(passed) = &looked.passed else { return };
        if passed.is_empty {
            self.empty.add(|| name(number));
        }
        if let Some(first) = self.doubles.earlier(number, passed.mark) {
            self.doubled.add(|| format!("{} as {}", name(number), name(first)));
        }
    }

    fn all(&self) -> usize {
        self.counts.iter().sum()
    }

    /// How many were judged or refused.
    pub fn read(&self) -> usize {
        self.counts[..Ending::Failed as usize].iter().sum()
    }

    /// Of records that were judged by this.
    pub fn line(&self, by: &str) -> String {
        let all = self.all();
        let records = if all == 1 { "record" } else { "records" };
        let [met, broken, refused, unread] = self.counts;
        format!("{all} {records} against {by}: {met} met, {broken} broken, {refused} refused, {unread} not read")
    }

    /// Of records that may be none of this day: a line for each way.
    pub fn remarks(&self) -> Vec<String> {
        let empty = self.empty.remark("record has no event", "records have no event");
        let doubled = self.doubled.remark("record has the bytes of another", "records have the bytes of another");
        empty.into_iter().chain(doubled).collect()
    }
}
