//! Where the copies of a script's puts went, and the equation of Change 2 about them.

use crate::record::u32_at;
use crate::store::CALL_BYTES;

/// The terms of the equation. All but the outstanding copies are counted from the bytes of a script and of its answers
/// alone, so that no store of the second checker's has a part in them.
#[derive(Clone, Copy, Debug, Default, PartialEq, Eq)]
pub struct Copies {
    pub puts: u64,
    pub other_sites: u64,
    pub by_deliveries: u64,
    pub by_closes: u64,
    pub outstanding: u64,
    /// No term: a get has no copies.
    pub gets: u64,
}

impl Copies {
    pub fn of(sites: u32, script: &[u8], answers: &[u8], outstanding: usize) -> Copies {
        let other_sites = (sites as u64).saturating_sub(1);
        let mut copies = Copies { other_sites, outstanding: outstanding as u64, ..Copies::default() };
        for (call, answer) in calls_answered(script, answers) {
            if answer[0] == 0 {
                copies.count(call[0], answer);
            }
        }
        copies
    }

    fn count(&mut self, kind: u8, answer: &[u8]) {
        match kind {
            1 => self.puts += 1,
            2 => self.gets += 1,
            3 => self.by_deliveries += 1,
            4 => self.by_closes += u32_at(answer, 4) as u64,
            _ => (),
        }
    }

    /// Every put has a copy for each other site, which was delivered once or is outstanding.
    pub fn add_up(&self) -> bool {
        self.puts * self.other_sites == self.by_deliveries + self.by_closes + self.outstanding
    }
}

/// The calls of a script, each with its answer.
pub fn calls_answered<'a>(script: &'a [u8], answers: &'a [u8]) -> impl Iterator<Item = (&'a [u8], &'a [u8])> {
    script.chunks_exact(CALL_BYTES).zip(answers.chunks_exact(CALL_BYTES))
}
