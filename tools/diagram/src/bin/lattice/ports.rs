//! Where lines leave boxes and come to them: side by side, in the order in which they go on.

use crate::claim::MODELS;
use crate::net::{Net, Node};

/// Between two lines at one box.
const APART: f64 = 20.0;

/// A piece of a line from one layer to the next, with how far right of the middles of its nodes it begins and ends.
#[derive(Clone, Copy, Debug)]
pub struct Link {
    pub from: Node,
    pub to: Node,
    pub leaves: f64,
    pub enters: f64,
}

/// In the order of the net's links, for boxes of this width.
pub fn links(net: &Net, width: f64) -> Vec<Link> {
    let (links, places) = (net.links(), net.places());
    let leaves = |&(from, to): &(Node, Node)| {
        let onward = links.iter().filter(|link| link.0 == from).map(|link| places[link.1]);
        port(from, places[to], &onward.collect::<Vec<_>>(), width)
    };
    let enters = |&(from, to): &(Node, Node)| {
        let onward = links.iter().filter(|link| link.1 == to).map(|link| places[link.0]);
        port(to, places[from], &onward.collect::<Vec<_>>(), width)
    };
    links.iter().map(|link| Link { from: link.0, to: link.1, leaves: leaves(link), enters: enters(link) }).collect()
}

/// How far right of a node's middle the line has its end that goes on to this place, of all to which lines go.
fn port(node: Node, place: usize, places: &[usize], width: f64) -> f64 {
    if node >= MODELS {
        return 0.0;
    }
    let before = places.iter().filter(|&&other| other < place).count();
    let apart = APART.min(width / (places.len() + 1) as f64);
    (before as f64 - (places.len() - 1) as f64 / 2.0) * apart
}

#[cfg(test)]
mod tests {
    use super::*;

    #[test]
    fn lines_stand_side_by_side_in_the_order_of_where_they_go() {
        assert_eq!([4, 7, 9].map(|place| port(0, place, &[9, 4, 7], 140.0)), [-APART, 0.0, APART]);
        assert_eq!(port(0, 3, &[3], 140.0), 0.0);
    }

    #[test]
    fn a_bend_is_a_point() {
        assert_eq!(port(MODELS, 3, &[3], 140.0), 0.0);
    }
}
