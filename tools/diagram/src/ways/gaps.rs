//! Where lines pass between the marks of a row.

/// From the end of a mark to the next one's begin, less some room.
#[derive(Clone, Copy, Debug, PartialEq)]
pub struct Gap {
    pub from: f64,
    pub to: f64,
}

impl Gap {
    pub fn nearest(&self, x: f64) -> f64 {
        x.clamp(self.from, self.to)
    }

    fn distance(&self, x: f64) -> f64 {
        (self.nearest(x) - x).abs()
    }

    fn holds(&self, x: f64) -> bool {
        self.from <= x && x <= self.to
    }

    /// Places in the gap that are so far apart, from the nearest to x on.
    fn places(&self, x: f64, apart: f64) -> impl Iterator<Item = f64> + '_ {
        let (first, steps) = (self.nearest(x), ((self.to - self.from) / apart) as i32);
        let both = (0..=steps).flat_map(move |step| [first - apart * f64::from(step), first + apart * f64::from(step)]);
        both.filter(|&place| self.holds(place))
    }
}

/// The gaps between marks, given in order from left to right; before the first from `left` on, and after the last
/// without end.
pub fn between(marks: &[(f64, f64)], left: f64, room: f64) -> Vec<Gap> {
    let begins = std::iter::once(left).chain(marks.iter().map(|mark| mark.1 + room));
    let ends = marks.iter().map(|mark| mark.0 - room).chain(std::iter::once(f64::INFINITY));
    begins.zip(ends).map(|(from, to)| Gap { from, to }).filter(|gap| gap.from <= gap.to).collect()
}

/// The place nearest to x in any of the gaps that is free. There is one: the last gap has no end.
pub fn best(gaps: &[Gap], x: f64, apart: f64, is_free: impl Fn(f64) -> bool) -> f64 {
    let mut by_distance: Vec<&Gap> = gaps.iter().collect();
    by_distance.sort_by(|one, other| one.distance(x).total_cmp(&other.distance(x)));
    let mut found: Option<f64> = None;
    for gap in &by_distance {
        let far = found.map_or(f64::MAX, |place| (place - x).abs());
        if far <= gap.distance(x) {
            break;
        }
        found = gap.places(x, apart).find(|&place| is_free(place)).filter(|place| (place - x).abs() < far).or(found);
    }
    found.expect("not every place is taken")
}

#[cfg(test)]
mod tests {
    use super::*;

    #[test]
    fn gaps_are_between_marks_and_beside_them() {
        let gaps = between(&[(20.0, 40.0), (46.0, 60.0), (65.0, 80.0)], 5.0, 3.0);
        let ends: Vec<(f64, f64)> = gaps.iter().map(|gap| (gap.from, gap.to)).collect();
        assert_eq!(ends, [(5.0, 17.0), (43.0, 43.0), (83.0, f64::INFINITY)]);
        assert_eq!(between(&[], 5.0, 3.0), [Gap { from: 5.0, to: f64::INFINITY }]);
    }

    #[test]
    fn a_line_goes_straight_on_where_it_can() {
        let gaps = between(&[(20.0, 40.0)], 0.0, 1.0);
        assert_eq!(best(&gaps, 55.0, 5.0, |_| true), 55.0);
        assert_eq!(best(&gaps, 38.0, 5.0, |_| true), 41.0);
        assert_eq!(best(&gaps, 55.0, 5.0, |place| place != 55.0), 50.0);
    }

    #[test]
    fn a_taken_gap_is_left_for_another() {
        let gaps = between(&[(20.0, 40.0), (42.0, 60.0)], 0.0, 1.0);
        assert_eq!(best(&gaps, 41.0, 5.0, |place| place != 41.0), 61.0);
        assert_eq!(best(&gaps, 41.0, 5.0, |place| place > 70.0), 71.0);
    }
}
