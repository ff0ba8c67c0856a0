//! The order of each layer from left to right, so that few lines cross.

use crate::net::{Net, Node};

impl Net {
    /// Every node in turn goes where it is best for the whole, until none is better elsewhere.
    pub fn ordered(mut self) -> Net {
        let mut least = self.cost();
        loop {
            let before = least;
            for depth in 0..self.layers.len() {
                for node in self.layers[depth].clone() {
                    least = self.settle(depth, node);
                }
            }
            if least == before {
                return self;
            }
        }
    }

    /// Puts a node at the best place of its layer, its own if none is better, and tells what that costs.
    fn settle(&mut self, depth: usize, node: Node) -> Cost {
        let own = self.layers[depth].clone();
        let mut best = (self.cost(), own.clone());
        let others: Vec<Node> = own.into_iter().filter(|&other| other != node).collect();
        for place in 0..=others.len() {
            self.layers[depth].clone_from(&others);
            self.layers[depth].insert(place, node);
            let cost = self.cost();
            if cost < best.0 {
                best = (cost, self.layers[depth].clone());
            }
        }
        self.layers[depth] = best.1;
        best.0
    }

    fn cost(&self) -> Cost {
        let (links, places, depths) = (self.links(), self.places(), self.depths());
        let is_crossing = |&(a, b): &(Node, Node), &(c, d): &(Node, Node)| {
            depths[a] == depths[c] && (places[a] < places[c] && places[b] > places[d])
        };
        let crossings = links.iter().map(|one| links.iter().filter(|other| is_crossing(one, other)).count()).sum();
        // Twice as far from the middle of its layer as the node stands.
        let off = |node: Node| 2 * places[node] as i64 - self.layers[depths[node]].len() as i64;
        let aslant = links.iter().map(|&(from, to)| (off(from) - off(to)).pow(2)).sum();
        Cost { crossings, aslant }
    }
}

/// Fewer crossings come first, then lines that lead straight down.
#[derive(Clone, Copy, Debug, PartialEq, Eq, PartialOrd, Ord)]
struct Cost {
    crossings: usize,
    aslant: i64,
}

#[cfg(test)]
mod tests {
    use super::*;

    #[test]
    fn lines_that_need_not_cross_do_not() {
        let net = Net::new(&[(0, 5), (1, 4), (2, 3), (0, 6), (6, 5)]).ordered();
        assert_eq!(net.cost().crossings, 0);
    }

    #[test]
    fn two_models_that_both_cover_two_others_cross_once() {
        let net = Net::new(&[(0, 2), (0, 3), (1, 2), (1, 3)]).ordered();
        assert_eq!(net.cost().crossings, 1);
    }
}
