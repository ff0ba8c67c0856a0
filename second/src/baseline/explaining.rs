//! What happened where a predicate breaks: a shortest chain by layers, a middle event, or the pair's second event alone.

use super::columns::Columns;
use super::judging::prepare;
use super::refused;
use super::rows::*;

/// The call with its work memory inside: how many entries were written, or what refused it.
pub fn explain(predicate: u32, record: &[u8], events: &mut [u16]) -> u64 {
    if !(1..=13).contains(&predicate) {
        return refused(2, 0);
    }
    let Some(events) = events.first_chunk_mut() else { return refused(41, 0) };
    let mut columns = Columns::new();
    if let Err((number, place)) = prepare(record, &mut columns) {
        return refused(number, place);
    }
    match columns.broken(predicate) {
        None => refused(42, 0),
        Some(pair) => columns.explain(predicate, pair, events) as u64,
    }
}

impl Columns {
    /// Writes the events after a pair's first, and says how many they are.
    pub fn explain(&self, predicate: u32, (a, b): (usize, usize), events: &mut [u16; ROWS]) -> usize {
        match predicate {
            5 | 8 => {
                events[..2].copy_from_slice(&[self.middle(a, b) as u16, b as u16]);
                2
            }
            10 | 11 => self.chain(a, b, events),
            _ => {
                events[0] = b as u16;
                1
            }
        }
    }

    /// The lowest read that sees a and is so before b. 5 and 8 ask the same of it, and both have one.
    fn middle(&self, a: usize, b: usize) -> usize {
        let reads = minus(&self.so[b], &self.writes);
        first(&reads, |read| has(&self.vis[read], a)).expect("the pair breaks")
    }

    /// From a on, always the lowest event that is one step nearer to b.
    fn chain(&self, a: usize, b: usize, events: &mut [u16; ROWS]) -> usize {
        let layers = Layers::between(self, a, b);
        let mut last = a;
        for (entry, nearer) in events.iter_mut().zip((0..layers.count).rev()) {
            let next = layers.get(nearer).iter().find(|&&event| has(&self.step(event as usize), last));
            last = usize::from(*next.expect("each layer leads to the next"));
            *entry = last as u16;
        }
        layers.count
    }

    /// All that are one step before an event.
    fn step(&self, event: usize) -> Row {
        union(&self.vis[event], &self.so[event])
    }
}

/// Events by how many steps they are before b, and in a layer by their numbers. They end where a comes next.
struct Layers {
    /// One more than there are events: b comes twice where it is on a ring.
    events: [u16; ROWS + 1],
    starts: [u16; ROWS + 1],
    count: usize,
}

impl Layers {
    fn between(columns: &Columns, a: usize, b: usize) -> Layers {
        let mut layers = Layers { events: [0; ROWS + 1], starts: [0; ROWS + 1], count: 0 };
        let mut filled = layers.put(0, b);
        let mut reached = EMPTY;
        loop {
            layers.count += 1;
            layers.starts[layers.count] = filled as u16;
            let nearest = layers.get(layers.count - 1);
            let before = nearest.iter().fold(EMPTY, |all, &event| union(&all, &columns.step(event as usize)));
            if has(&before, a) {
                return layers;
            }
            each(&minus(&before, &reached), |event| filled = layers.put(filled, event));
            reached = union(&reached, &before);
        }
    }

    /// Gives the next place.
    fn put(&mut self, at: usize, event: usize) -> usize {
        self.events[at] = event as u16;
        at + 1
    }

    fn get(&self, layer: usize) -> &[u16] {
        &self.events[self.starts[layer].into()..self.starts[layer + 1].into()]
    }
}
