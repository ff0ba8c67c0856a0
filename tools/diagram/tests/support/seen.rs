//! What each event sees, read off a picture, and what the record says of it.

use super::drawing::Drawing;
use second::record::Record;

/// By the legend's words: an arrow leads from an event to one that sees it, and by a filled head that one sees all that
/// the first sees.
pub fn read_off(drawing: &Drawing, events: usize) -> Vec<Vec<bool>> {
    let (all, alone) = (drawing.pairs("seen all"), drawing.pairs("seen alone"));
    let mut sees = vec![vec![false; events]; events];
    all.iter().chain(&alone).for_each(|&(from, to)| sees[to][from] = true);
    // Visibility has no ring, so that no way is longer than this.
    for _ in 0..events {
        let before = sees.clone();
        for &(from, to) in &all {
            let first = sees[from].clone();
            sees[to].iter_mut().zip(first).for_each(|(seen, more)| *seen |= more);
        }
        if sees == before {
            break;
        }
    }
    sees
}

pub fn said(record: &Record) -> Vec<Vec<bool>> {
    let events = record.events.len();
    record.events.iter().map(|event| event.visible[..events].to_vec()).collect()
}
