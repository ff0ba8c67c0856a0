//! Arrows that leave one side of a mark run together: upright past rows, and level between two rows to the marks that
//! they lead to.

use super::gaps::Gap;
use super::ports::{Ports, Side};
use super::uprights::Uprights;
use crate::layout::scale::Scale;
use crate::part::PerEvent;
use crate::sight::Arrow;

/// The room above row r is level r; a comb has one level line in each that it uses.
#[derive(Clone, Debug)]
pub struct Comb {
    pub arrows: Vec<usize>,
    pub is_of_break: bool,
    /// In the order in which it comes to them.
    pub levels: Vec<Level>,
}

#[derive(Clone, Debug)]
pub struct Level {
    pub level: usize,
    /// Where the comb comes to this level, and the ends of its line there.
    pub comes: f64,
    pub from: f64,
    pub to: f64,
}

/// What combs are made from.
pub struct Teeth<'a> {
    pub arrows: &'a [Arrow],
    pub ports: &'a [Ports],
    pub rows: &'a PerEvent<usize>,
}

impl Teeth<'_> {
    /// The level from which an arrow enters its mark.
    fn level(&self, arrow: usize) -> usize {
        let row = self.rows[self.arrows[arrow].to];
        match self.ports[arrow].enters.0 {
            Side::Top => row,
            Side::Bottom => row + 1,
        }
    }

    /// The levels from an arrow's begin to its end, in order.
    pub fn levels(&self, arrow: usize) -> Vec<usize> {
        let (row, last) = (self.rows[self.arrows[arrow].from], self.level(arrow));
        match self.ports[arrow].leaves.0 {
            Side::Top => (last..=row).rev().collect(),
            Side::Bottom => (row + 1..=last).collect(),
        }
    }

    /// Which of these arrows run together.
    fn groups(&self, bent: &[usize]) -> Vec<Vec<usize>> {
        let key = |&arrow: &usize| {
            let of_break = self.arrows[arrow].says.is_of_break().then_some(arrow);
            (self.arrows[arrow].from, self.ports[arrow].leaves.0, of_break)
        };
        let mut bent = bent.to_vec();
        bent.sort_by_key(key);
        bent.chunk_by(|one, other| key(one) == key(other)).map(<[usize]>::to_vec).collect()
    }
}

/// The combs of these arrows; `gaps` are those of each row.
pub fn combs(teeth: &Teeth, bent: &[usize], gaps: &[Vec<Gap>], scale: &Scale) -> Vec<Comb> {
    let mut uprights = Uprights::new(teeth, bent, gaps, scale);
    teeth.groups(bent).into_iter().map(|group| comb(teeth, group, &mut uprights)).collect()
}

/// As nearly upright as it can be past all rows, to the furthest level that an arrow of it needs.
fn comb(teeth: &Teeth, arrows: Vec<usize>, uprights: &mut Uprights) -> Comb {
    let furthest = arrows.iter().map(|&arrow| teeth.levels(arrow)).max_by_key(Vec::len).unwrap_or_default();
    let (from, mut comes) = (teeth.arrows[arrows[0]].from, teeth.ports[arrows[0]].leaves.1);
    let mut levels: Vec<Level> = Vec::new();
    for level in furthest {
        if let Some(before) = levels.last() {
            comes = uprights.pass(before.level.min(level), comes, from);
        }
        levels.push(Level { level, comes, from: comes, to: comes });
    }
    let is_of_break = teeth.arrows[arrows[0]].says.is_of_break();
    let mut comb = Comb { arrows, is_of_break, levels };
    comb.stretch(teeth);
    comb
}

impl Comb {
    /// Each level line reaches to where the comb goes on and to where its arrows end.
    fn stretch(&mut self, teeth: &Teeth) {
        for index in 1..self.levels.len() {
            let onward = self.levels[index].comes;
            self.levels[index - 1].reach(onward);
        }
        for &arrow in &self.arrows {
            let at = teeth.levels(arrow).len() - 1;
            self.levels[at].reach(teeth.ports[arrow].enters.1);
        }
    }
}

impl Level {
    fn reach(&mut self, x: f64) {
        (self.from, self.to) = (self.from.min(x), self.to.max(x));
    }
}
