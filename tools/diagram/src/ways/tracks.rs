//! How high level lines run, so that no two lie on each other.

use super::combs::{Comb, Level};

/// The track of a comb's line at each of its levels, counted from 1 upwards; none where the comb only passes.
pub struct Tracks {
    pub track: Vec<Vec<Option<usize>>>,
    /// The highest of each level.
    pub highest: Vec<usize>,
}

/// Two lines on one track are at least this far apart.
const APART: f64 = 8.0;

#[derive(Clone, Copy)]
struct Run {
    level: usize,
    from: f64,
    to: f64,
    is_of_break: bool,
    comb: usize,
    step: usize,
}

impl Run {
    fn length(&self) -> f64 {
        self.to - self.from
    }

    fn meets(&self, other: &Run) -> bool {
        self.from < other.to + APART && other.from < self.to + APART
    }
}

impl Tracks {
    /// Short lines are below long ones, and those of a break above all.
    pub fn new(combs: &[Comb], levels: usize) -> Tracks {
        let mut runs = runs(combs);
        let order = |run: &Run, other: &Run| run.is_of_break.cmp(&other.is_of_break);
        runs.sort_by(|run, other| order(run, other).then(run.length().total_cmp(&other.length())));
        let mut track: Vec<Vec<Option<usize>>> = combs.iter().map(|comb| vec![None; comb.levels.len()]).collect();
        let mut placed: Vec<Vec<Vec<Run>>> = vec![Vec::new(); levels];
        for run in runs {
            let tracks = &mut placed[run.level];
            let is_free = |track: &Vec<Run>| !run.is_of_break && !track.iter().any(|other| run.meets(other));
            let lowest = tracks.iter().position(is_free).unwrap_or(tracks.len());
            tracks.resize_with(tracks.len().max(lowest + 1), Vec::new);
            tracks[lowest].push(run);
            track[run.comb][run.step] = Some(lowest + 1);
        }
        Tracks { track, highest: placed.iter().map(Vec::len).collect() }
    }
}

/// The level lines that have a length.
fn runs(combs: &[Comb]) -> Vec<Run> {
    let run = |comb: usize, step: usize, level: &Level| {
        let is_of_break = combs[comb].is_of_break;
        Run { level: level.level, from: level.from, to: level.to, is_of_break, comb, step }
    };
    let runs = (0..combs.len())
        .flat_map(|comb| combs[comb].levels.iter().enumerate().map(move |(step, level)| run(comb, step, level)));
    runs.filter(|run| run.length() > 0.0).collect()
}

#[cfg(test)]
mod tests {
    use super::*;

    fn comb(from: f64, to: f64, level: usize, is_of_break: bool) -> Comb {
        Comb { arrows: Vec::new(), is_of_break, levels: vec![Level { level, comes: from, from, to }] }
    }

    fn tracks(combs: &[Comb]) -> Vec<Option<usize>> {
        Tracks::new(combs, 2).track.concat()
    }

    #[test]
    fn lines_side_by_side_share_a_track_and_longer_ones_go_above() {
        let combs = [comb(0.0, 500.0, 0, false), comb(100.0, 300.0, 0, false), comb(310.0, 400.0, 0, false)];
        assert_eq!(tracks(&combs), [Some(2), Some(1), Some(1)]);
    }

    #[test]
    fn a_break_runs_above_all_of_its_level_and_a_passing_comb_has_no_track() {
        let combs =
            [comb(0.0, 500.0, 0, false), comb(1.0, 2.0, 0, true), comb(0.0, 9.0, 1, false), comb(5.0, 5.0, 0, false)];
        assert_eq!(tracks(&combs), [Some(1), Some(2), Some(1), None]);
    }
}
