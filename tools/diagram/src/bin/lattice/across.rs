//! Where the nodes of each layer stand from left to right: so that lines lead down as straight as there is room for.

use crate::claim::MODELS;
use crate::net::{Net, Node};
use crate::pooled::{rising, Wish};
use crate::ports::Link;

/// Between boxes, and between a line and what is beside it.
const GAP: f64 = 24.0;
const BESIDE: f64 = 22.0;
/// After so many no node moves by a visible step any more.
const ROUNDS: usize = 8000;
/// A piece of a line that is so far aside pulls twice as hard as by that alone, so that small slants become none.
const STRAIGHT: f64 = 200.0;
/// No slant is taken to be less.
const LEAST: f64 = 0.2;
/// How many times harder a piece pulls that leads from bend to bend.
const LONG: f64 = 8.0;

/// What places are found for.
pub struct Across<'a> {
    pub net: &'a Net,
    pub links: &'a [Link],
    /// Of a box.
    pub width: f64,
}

impl Across<'_> {
    /// What the widest layer needs.
    pub fn least(&self) -> f64 {
        let needed = |layer: &Vec<Node>| self.bounds(layer, 0.0).map_or(0.0, |(low, high)| low - high);
        self.net.layers.iter().map(needed).fold(0.0, f64::max)
    }

    /// The middle of each node, in a space of this width.
    pub fn middles(&self, space: f64) -> Vec<f64> {
        let mut middles = vec![space / 2.0; self.net.nodes()];
        for _ in 0..ROUNDS {
            self.net.layers.iter().for_each(|layer| self.settle(layer, space, &mut middles));
        }
        middles.into_iter().map(f64::round).collect()
    }

    /// A layer as its lines would have it, given where the layers above and below stand.
    fn settle(&self, layer: &[Node], space: f64, middles: &mut [f64]) {
        let Some((low, high)) = self.bounds(layer, space) else { return };
        let steps = self.steps(layer);
        let wish = |(&node, step): (&Node, &f64)| {
            let (place, weight) = self.wish(node, middles);
            (place - step, weight)
        };
        let wishes: Vec<Wish> = layer.iter().zip(&steps).map(wish).collect();
        for ((&node, step), place) in layer.iter().zip(&steps).zip(rising(&wishes)) {
            middles[node] = place.min(high).max(low) + step;
        }
    }

    /// How far left and how far right the first node of a layer may stand.
    fn bounds(&self, layer: &[Node], space: f64) -> Option<(f64, f64)> {
        let (first, last) = (layer.first()?, layer.last()?);
        Some((self.half(*first), space - self.half(*last) - self.steps(layer).last()?))
    }

    /// How far right of the first each stands at least.
    fn steps(&self, layer: &[Node]) -> Vec<f64> {
        let mut steps = vec![0.0; layer.len()];
        for (index, pair) in layer.windows(2).enumerate() {
            let gap = if pair.iter().all(|&node| node < MODELS) { GAP } else { BESIDE };
            steps[index + 1] = steps[index] + self.half(pair[0]) + gap + self.half(pair[1]);
        }
        steps
    }

    fn half(&self, node: Node) -> f64 {
        if node < MODELS {
            self.width / 2.0
        } else {
            0.0
        }
    }

    /// Where a node's lines pull it, and how hard.
    fn wish(&self, node: Node, middles: &[f64]) -> Wish {
        let (mut sum, mut all) = (0.0, 0.0);
        for link in self.links.iter().filter(|link| link.from == node || link.to == node) {
            let aside = middles[link.to] + link.enters - middles[link.from] - link.leaves;
            let weight = weight(link, aside.abs());
            sum += weight * if link.from == node { aside } else { -aside };
            all += weight;
        }
        (middles[node] + if all > 0.0 { sum / all } else { 0.0 }, all.max(1.0))
    }
}

fn weight(link: &Link, aside: f64) -> f64 {
    let is_long = link.from >= MODELS && link.to >= MODELS;
    (1.0 + STRAIGHT / aside.max(LEAST)) * if is_long { LONG } else { 1.0 }
}

#[cfg(test)]
mod tests {
    use super::*;
    use crate::ports::links;

    const WIDTH: f64 = 100.0;

    fn middles(net: &Net, space: f64) -> Vec<f64> {
        Across { net, links: &links(net, WIDTH), width: WIDTH }.middles(space)
    }

    #[test]
    fn a_chain_stands_upright() {
        let middles = middles(&Net::new(&[(0, 1), (1, 2)]), 2000.0);
        assert!(middles[0] == middles[1] && middles[1] == middles[2]);
    }

    #[test]
    fn the_nodes_of_a_layer_stand_apart_in_its_order_and_inside() {
        let net = Net::new(&[(0, 1), (0, 2), (2, 3), (0, 3), (4, 3), (5, 1)]).ordered();
        let across = Across { net: &net, links: &links(&net, WIDTH), width: WIDTH };
        let (space, middles) = (across.least(), across.middles(across.least()));
        for layer in &net.layers {
            for (pair, steps) in layer.windows(2).zip(across.steps(layer).windows(2)) {
                assert!(middles[pair[1]] - middles[pair[0]] >= steps[1] - steps[0] - 1.0);
            }
            assert!(layer.iter().all(|&node| (0.0..=space).contains(&middles[node])));
        }
    }
}
