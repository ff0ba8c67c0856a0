//! Models in layers, with a bend wherever a line passes through one.

use crate::chains::{depths, Pair};
use crate::claim::MODELS;

/// Nodes below `MODELS` are models, and all others bends.
pub type Node = usize;

pub struct Net {
    /// The nodes of each layer, from left to right.
    pub layers: Vec<Vec<Node>>,
    /// Each line's nodes from the top down, one in each layer from its first to its last.
    pub lines: Vec<Vec<Node>>,
}

impl Net {
    /// A model stands below every one that covers it, and no lower than that needs.
    pub fn new(pairs: &[Pair]) -> Net {
        let depths = depths(pairs);
        let deepest = depths.iter().max().map_or(0, |depth| depth + 1);
        let models = |layer| (0..MODELS).filter(|&model| depths[model] == layer).collect();
        let mut net = Net { layers: (0..deepest).map(models).collect(), lines: Vec::new() };
        let mut next = MODELS;
        for &(first, second) in pairs {
            let mut line = vec![first];
            for layer in &mut net.layers[depths[first] + 1..depths[second]] {
                layer.push(next);
                line.push(next);
                next += 1;
            }
            line.push(second);
            net.lines.push(line);
        }
        net
    }

    /// The pieces of lines, each from one layer to the next.
    pub fn links(&self) -> Vec<(Node, Node)> {
        self.lines.iter().flat_map(|line| line.windows(2).map(|link| (link[0], link[1]))).collect()
    }

    /// How many there are.
    pub fn nodes(&self) -> usize {
        self.layers.iter().map(Vec::len).sum()
    }

    /// Where each node stands in its layer.
    pub fn places(&self) -> Vec<usize> {
        let mut places = vec![0; self.nodes()];
        for layer in &self.layers {
            layer.iter().enumerate().for_each(|(place, &node)| places[node] = place);
        }
        places
    }

    /// The layer of each node.
    pub fn depths(&self) -> Vec<usize> {
        let mut depths = vec![0; self.nodes()];
        for (depth, layer) in self.layers.iter().enumerate() {
            layer.iter().for_each(|&node| depths[node] = depth);
        }
        depths
    }
}

#[cfg(test)]
mod tests {
    use super::*;

    #[test]
    fn a_line_has_a_bend_in_every_layer_that_it_passes() {
        let net = Net::new(&[(0, 1), (1, 2), (2, 3), (0, 3)]);
        assert_eq!(net.layers[1..], [vec![1, 13], vec![2, 14], vec![3]]);
        assert_eq!(net.lines[3], [0, 13, 14, 3]);
        assert_eq!(net.links().len(), 6);
    }
}
