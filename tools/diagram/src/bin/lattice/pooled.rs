//! Numbers in rising order, as near as can be to others that are in any.

/// A wish, and how much it weighs.
pub type Wish = (f64, f64);

/// The rising numbers with the least weighed squares of distance to the wishes: where two are out of order they become
/// their mean, until none is.
pub fn rising(wishes: &[Wish]) -> Vec<f64> {
    let mut pools: Vec<(Wish, usize)> = Vec::new();
    for &wish in wishes {
        pools.push((wish, 1));
        while let [.., before, last] = pools[..] {
            if before.0 .0 <= last.0 .0 {
                break;
            }
            pools.truncate(pools.len() - 2);
            pools.push((mean(before.0, last.0), before.1 + last.1));
        }
    }
    pools.into_iter().flat_map(|((number, _), count)| std::iter::repeat_n(number, count)).collect()
}

fn mean(one: Wish, other: Wish) -> Wish {
    let weight = one.1 + other.1;
    ((one.0 * one.1 + other.0 * other.1) / weight, weight)
}

#[cfg(test)]
mod tests {
    use super::*;

    #[test]
    fn what_rises_stays() {
        assert_eq!(rising(&[(1.0, 1.0), (1.0, 5.0), (4.0, 1.0)]), [1.0, 1.0, 4.0]);
    }

    #[test]
    fn what_falls_becomes_its_mean() {
        assert_eq!(rising(&[(6.0, 1.0), (3.0, 2.0), (9.0, 1.0)]), [4.0, 4.0, 9.0]);
        assert_eq!(rising(&[(5.0, 1.0), (7.0, 1.0), (0.0, 1.0)]), [4.0, 4.0, 4.0]);
    }
}
