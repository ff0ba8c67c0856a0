//! Where chains of pairs lead, and how long they are.

use crate::claim::MODELS;

/// The first covers the second; a model stands here by its number less one.
pub type Pair = (usize, usize);

/// Whether a way leads from one model to another.
pub type Grid = [[bool; MODELS]; MODELS];

/// Where chains of one or more of the pairs lead.
pub fn reached(pairs: &[Pair]) -> Grid {
    let mut grid = [[false; MODELS]; MODELS];
    pairs.iter().for_each(|&(first, second)| grid[first][second] = true);
    for by in 0..MODELS {
        let onward = grid[by];
        for row in grid.iter_mut().filter(|row| row[by]) {
            row.iter_mut().zip(onward).for_each(|(cell, leads)| *cell |= leads);
        }
    }
    grid
}

/// The pairs that no chain of others gives. No chain leads back to where it began.
pub fn needed(pairs: &[Pair]) -> Vec<Pair> {
    let grid = reached(pairs);
    let is_given = |&&(first, second): &&Pair| (0..MODELS).any(|by| grid[first][by] && grid[by][second]);
    pairs.iter().filter(|pair| !is_given(pair)).copied().collect()
}

/// For each model how many pairs the longest chain has that leads down to it. No chain leads back to where it began.
pub fn depths(pairs: &[Pair]) -> [usize; MODELS] {
    let mut depths = [0; MODELS];
    for _ in 0..MODELS {
        for &(first, second) in pairs {
            depths[second] = depths[second].max(depths[first] + 1);
        }
    }
    depths
}

#[cfg(test)]
mod tests {
    use super::*;

    const PAIRS: [Pair; 5] = [(3, 4), (0, 1), (1, 2), (0, 2), (2, 3)];

    #[test]
    fn chains_lead_on_and_not_back() {
        let grid = reached(&PAIRS);
        assert!(grid[0][4] && grid[1][3] && !grid[4][0] && !grid[0][0] && !grid[0][5]);
    }

    #[test]
    fn a_pair_that_a_chain_gives_is_not_needed() {
        assert_eq!(needed(&PAIRS), [(3, 4), (0, 1), (1, 2), (2, 3)]);
    }

    #[test]
    fn the_longest_chain_counts() {
        assert_eq!(depths(&PAIRS)[..6], [0, 1, 2, 3, 4, 0]);
    }
}
