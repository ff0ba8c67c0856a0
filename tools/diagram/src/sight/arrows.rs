//! Which arrows tell exactly what each event sees.
//!
//! Visibility need not be transitive, so that an arrow left out for a way round it could mislead. An arrow therefore
//! says by its head whether the second event also sees all that the first sees, and only where it does is anything
//! left out: what an event sees is what its arrows come from and, of the arrows that say so, what those events see.

use super::{Arrow, Says};
use std::cmp::Reverse;

/// `before` has, for each event, the one next before it on its line, if any. Where the later of the two sees the
/// earlier, the arrow between them is always kept, and so are those that `is_kept` names.
pub fn arrows(
    sees: &impl Fn(usize, usize) -> bool,
    before: &[Option<usize>],
    is_kept: &impl Fn(usize, usize) -> bool,
) -> Vec<Arrow> {
    let ranks = ranks(before.len(), sees);
    let to = |event: usize| arrows_to(event, before[event], sees, &|other| is_kept(other, event), &ranks);
    (0..before.len()).flat_map(to).collect()
}

/// The last in rank come first, as they can tell of others, and before them the next on the line.
fn arrows_to(
    event: usize,
    before: Option<usize>,
    sees: &impl Fn(usize, usize) -> bool,
    is_kept: &impl Fn(usize) -> bool,
    ranks: &[usize],
) -> Vec<Arrow> {
    let mut seen: Vec<usize> = (0..ranks.len()).filter(|&other| sees(other, event)).collect();
    seen.sort_by_key(|&other| (Some(other) != before, Reverse(ranks[other])));
    let mut told = vec![false; ranks.len()];
    let mut arrows = Vec::new();
    for &other in &seen {
        if !told[other] || is_kept(other) {
            let says = says(other, event, sees, ranks.len());
            let is_told = |third: usize| says == Says::SeesAll && sees(third, other);
            (0..ranks.len()).filter(|&third| is_told(third)).for_each(|third| told[third] = true);
            arrows.push(Arrow::new(other, event, says));
        }
    }
    arrows
}

fn says(other: usize, event: usize, sees: &impl Fn(usize, usize) -> bool, count: usize) -> Says {
    match (0..count).all(|third| !sees(third, other) || sees(third, event)) {
        true => Says::SeesAll,
        false => Says::SeesAlone,
    }
}

/// How many steps of visibility lead to each event at most: more than to any that it sees.
fn ranks(count: usize, sees: &impl Fn(usize, usize) -> bool) -> Vec<usize> {
    let mut ranks = vec![0; count];
    // Visibility has no ring, so that ranks stop rising.
    loop {
        let rank = |event: usize| (0..count).filter(|&other| sees(other, event)).map(|other| ranks[other] + 1).max();
        let risen: Vec<usize> = (0..count).map(|event| rank(event).unwrap_or(0)).collect();
        if risen == ranks {
            return ranks;
        }
        ranks = risen;
    }
}

#[cfg(test)]
mod tests {
    use super::*;

    const COUNT: usize = 5;

    /// Bit 5a + b of a number says whether b sees a.
    fn has(pairs: u32, a: usize, b: usize) -> bool {
        pairs >> (COUNT * a + b) & 1 == 1
    }

    fn drawn(pairs: &[(usize, usize)], before: &[Option<usize>]) -> Vec<(usize, usize, Says)> {
        let arrows = arrows(&|a, b| pairs.contains(&(a, b)), before, &|_, _| false);
        arrows.iter().map(|arrow| (arrow.from, arrow.to, arrow.says)).collect()
    }

    #[test]
    fn what_a_chain_tells_has_no_arrow() {
        let chain = [(0, 1), (1, 2), (0, 2)];
        assert_eq!(drawn(&chain, &[None; 3]), [(0, 1, Says::SeesAll), (1, 2, Says::SeesAll)]);
    }

    #[test]
    fn what_a_chain_does_not_tell_is_not_told() {
        assert_eq!(drawn(&[(0, 1), (1, 2)], &[None; 3]), [(0, 1, Says::SeesAll), (1, 2, Says::SeesAlone)]);
    }

    #[test]
    fn the_next_on_the_line_is_told_of_by_the_line() {
        let pairs = [(0, 1), (0, 2), (1, 2)];
        let before = [None, None, Some(0)];
        let arrows = [(0, 1, Says::SeesAll), (0, 2, Says::SeesAll), (1, 2, Says::SeesAll)];
        assert_eq!(drawn(&pairs, &before), arrows);
    }

    #[test]
    fn what_is_kept_has_an_arrow_though_others_tell_it() {
        let chain = |a: usize, b: usize| a < b;
        let kept = arrows(&chain, &[None; 4], &|a, b| (a, b) == (0, 2));
        let ends: Vec<(usize, usize)> = kept.iter().map(|arrow| (arrow.from, arrow.to)).collect();
        assert_eq!(ends, [(0, 1), (1, 2), (0, 2), (2, 3)]);
        assert!(kept.iter().all(|arrow| arrow.says == Says::SeesAll));
    }

    /// Reads the arrows as the legend says; events see only lower ones here.
    fn told(arrows: &[Arrow]) -> u32 {
        let mut told = 0;
        for event in 0..COUNT {
            for arrow in arrows.iter().filter(|arrow| arrow.to == event) {
                let all = arrow.says == Says::SeesAll;
                let with = (0..COUNT).filter(|&third| third == arrow.from || all && has(told, third, arrow.from));
                told |= with.map(|third| 1 << (COUNT * third + event)).fold(0, |pairs, pair| pairs | pair);
            }
        }
        told
    }

    #[test]
    fn arrows_tell_every_visibility_of_five_events_exactly() {
        let lower: Vec<usize> = (0..COUNT * COUNT).filter(|pair| pair / COUNT < pair % COUNT).collect();
        for choice in 0..1u32 << lower.len() {
            let chosen = lower.iter().enumerate().filter(|&(bit, _)| choice >> bit & 1 == 1);
            let pairs: u32 = chosen.map(|(_, pair)| 1 << pair).sum();
            for before in [[None; COUNT], [None, Some(0), None, Some(1), Some(3)]] {
                assert_eq!(told(&arrows(&|a, b| has(pairs, a, b), &before, &|_, _| false)), pairs);
                assert_eq!(told(&arrows(&|a, b| has(pairs, a, b), &before, &|a, _| a == 1)), pairs);
            }
        }
    }
}
