//! The loading: all trips to a destination sent along next links.

use crate::format::MOST_NODES;
use crate::least_times::Tree;
use crate::network::{ByLink, ByNode, at_node};

/// Sends the trips to one destination along its next links, and calls `send`
/// with each link and its trips. Writes down the trips that leave each node,
/// all of them by its next link.
///
/// A node's turn comes when all nodes whose next link leads to it have had
/// theirs, for then it has all its passing trips. Trips stay where there is no
/// next link, and where next links go round.
#[inline]
pub fn load(
    heads: &ByLink<u8>,
    tree: Tree<'_>,
    trips: &[u16],
    leaving: &mut ByNode<u32>,
    mut send: impl FnMut(usize, u32),
) {
    for (all, &own) in leaving.iter_mut().zip(trips) {
        *all = u32::from(own);
    }

    // How many nodes each node waits for. A node without a next link waits
    // for one more, which never comes.
    let mut waits_for: ByNode<u8> = [0; MOST_NODES];
    for &node in tree.nodes() {
        let goal = tree.next_link(node).map_or(node, |link| heads[link]);
        waits_for[at_node(goal)] += 1;
    }

    // Whoever waits for nobody joins the queue: a node is written behind the
    // end, and the end moves on if it may stay.
    let mut queue: ByNode<u8> = [0; MOST_NODES];
    let mut joined = 0_u8;
    for &node in tree.nodes() {
        queue[at_node(joined)] = node;
        joined += u8::from(waits_for[at_node(node)] == 0);
    }
    let mut turn = 0;
    while turn < joined {
        let node = queue[at_node(turn)];
        turn += 1;
        let Some(link) = tree.next_link(node) else {
            continue; // not in the queue
        };
        let head = heads[link];
        let flow = leaving[at_node(node)];
        send(link, flow);
        leaving[at_node(head)] += flow;
        waits_for[at_node(head)] -= 1;
        queue[at_node(joined)] = head;
        joined += u8::from(waits_for[at_node(head)] == 0);
    }
}
