//! Change 7: what an operator is told of a predicate that breaks, and the call that tells it.

use crate::limits::{ENTRIES, WORK_WORDS};
use crate::models::refused;
use crate::predicates::{Answer, Judged, PREDICATES};
use crate::questions::{ask, Refusal};
use crate::reader;
use crate::relations::{Pairs, Relations};
use std::collections::VecDeque;

/// A break's first event, and the events after it, the pair's second one last.
#[derive(Clone, Debug, PartialEq, Eq)]
pub struct Explanation {
    pub a: usize,
    pub events: Vec<usize>,
}

/// Of each predicate, with nothing where it is met; or what refuses the record.
pub type Explanations = Result<Vec<Option<Explanation>>, Refusal>;

pub fn explanations(bytes: &[u8]) -> Explanations {
    ask(bytes).map(|record| Judged::new(&record).explanations())
}

impl Judged<'_> {
    pub fn explanations(&self) -> Vec<Option<Explanation>> {
        PREDICATES.map(|predicate| self.explanation(predicate)).collect()
    }

    pub fn explanation(&self, predicate: u32) -> Option<Explanation> {
        let Answer::Broken(a, b) = self.answer(predicate) else { return None };
        let events = match predicate {
            10 | 11 => shortest_chain(&self.relations.step, a, b).expect("hb leads from a to b"),
            5 | 8 => vec![self.middle_events(a, b)[0], b],
            _ => vec![b],
        };
        Some(Explanation { a, events })
    }

    /// All b with a vis b, b so c and b a read, lowest first. 5 and 8 ask the same of b; what they ask of a and c is so
    /// of every pair that breaks them.
    pub fn middle_events(&self, a: usize, c: usize) -> Vec<usize> {
        let Relations { so, vis, .. } = &self.relations;
        let between = |&b: &usize| vis.has(a, b) && so.has(b, c) && self.events[b].is_read();
        (0..self.events.len()).filter(between).collect()
    }
}

/// For each event, by how many steps it leads to b at least, one or more.
pub fn steps_to(step: &Pairs, b: usize) -> Vec<Option<usize>> {
    let mut steps = vec![None; step.events()];
    let mut to_come_to = VecDeque::from([(b, 0)]);
    while let Some((event, left)) = to_come_to.pop_front() {
        for before in (0..steps.len()).filter(|&before| step.has(before, event)) {
            if steps[before].is_none() {
                steps[before] = Some(left + 1);
                to_come_to.push_back((before, left + 1));
            }
        }
    }
    steps
}

/// The events after a on a shortest chain, if there is one, each next one taken of those from which b is one step less.
pub fn chain_by(
    step: &Pairs,
    a: usize,
    b: usize,
    take: impl Fn(&mut dyn Iterator<Item = usize>) -> Option<usize>,
) -> Option<Vec<usize>> {
    let steps = steps_to(step, b);
    let (mut chain, mut last) = (vec![], a);
    for left in (0..steps[a]?).rev() {
        let nearer = |&event: &usize| if left == 0 { event == b } else { steps[event] == Some(left) };
        last = take(&mut (0..steps.len()).filter(|&event| step.has(last, event)).filter(nearer))?;
        chain.push(last);
    }
    Some(chain)
}

/// Each of them the lowest possible.
pub fn shortest_chain(step: &Pairs, a: usize, b: usize) -> Option<Vec<usize>> {
    chain_by(step, a, b, |nearer| nearer.next())
}

fn refused_at_0(number: u32) -> u64 {
    refused(Refusal { number, place: 0 })
}

/// The call with a lent work slice: 1, 2, 41, 3 to 10, 42. What refuses before 3 leaves the work slice as it was.
pub fn explain_lent(predicate: u32, bytes: &[u8], work: &mut [u64], events: &mut [u16]) -> u64 {
    if work.len() < WORK_WORDS {
        return refused_at_0(1);
    }
    if PREDICATES.contains(&predicate) && events.len() >= ENTRIES {
        reader::read(bytes, work);
    }
    explain(predicate, bytes, events)
}

/// The host call, whose work memory is inside.
pub fn explain(predicate: u32, bytes: &[u8], events: &mut [u16]) -> u64 {
    told(predicate, &explanations(bytes), events)
}

/// Its answer and entries, from what explains a record.
pub fn told(predicate: u32, explanations: &Explanations, events: &mut [u16]) -> u64 {
    match explanations {
        _ if !PREDICATES.contains(&predicate) => refused_at_0(2),
        _ if events.len() < ENTRIES => refused_at_0(41),
        Err(refusal) => refused(*refusal),
        Ok(explanations) => match &explanations[predicate as usize - 1] {
            None => refused_at_0(42),
            Some(explanation) => write(&explanation.events, events),
        },
    }
}

/// Entries beyond what is written stay.
fn write(explanation: &[usize], events: &mut [u16]) -> u64 {
    for (entry, &event) in events.iter_mut().zip(explanation) {
        *entry = event as u16;
    }
    explanation.len() as u64
}
