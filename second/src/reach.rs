//! Question 11: does every node with trips have a path?

use crate::format::MOST_NODES;
use crate::network::{ByNode, Class, Study, at_node};

/// Puts question 11 to a study that is decoded otherwise.
pub fn paths_exist(study: &Study) -> bool {
    let unbarred = || {
        let ends = study.ends().zip(&study.barred);
        ends.filter(|&(_, &barred)| !barred).map(|(ends, _)| ends)
    };
    study.classes().all(|class| match class {
        Class::Cars => paths_exist_by(study, class, study.ends()),
        Class::Lorries => paths_exist_by(study, class, unbarred()),
    })
}

/// The same for one class and the tails and heads of the links it may use.
///
/// Sets of nodes are bits of one word. A search goes from a destination
/// backwards. It meets closed nodes, but goes on only from open ones and from
/// its own destination. So the set it finishes with is whole: whoever has a
/// link into an open node of it belongs to it.
///
/// When a later search goes on from an earlier destination, it takes that
/// destination's whole set without searching it again. It goes on from there
/// only when that destination is open, and then everybody with a path to it
/// may go on through it. Closed nodes of the set are met with the others, and
/// no search would go on from them. The set of a closed destination is never
/// taken.
fn paths_exist_by(study: &Study, class: Class, ends: impl Iterator<Item = (u8, u8)>) -> bool {
    let mut before: ByNode<u128> = [0; MOST_NODES]; // tails of links into each node
    for (tail, head) in ends {
        before[at_node(head)] |= 1 << at_node(tail);
    }

    let open = !study.closed;
    let mut known: ByNode<u128> = [0; MOST_NODES]; // finished sets, 0 elsewhere
    let rows = study.rows_of(class);
    for (destination, trips) in study.rows().skip(rows.start).take(rows.len()) {
        let mut reached: u128 = 1 << at_node(destination);
        let mut waiting = reached;
        while waiting != 0 {
            let node = waiting.trailing_zeros() as usize;
            let whole = known[node];
            if whole != 0 {
                reached |= whole;
                waiting &= !whole;
            } else {
                let fresh = before[node] & !reached;
                reached |= fresh;
                waiting = (waiting & (waiting - 1)) | (fresh & open);
            }
        }
        known[at_node(destination)] = reached;

        let mut stranded = false;
        for (node, &count) in trips.iter().enumerate() {
            stranded |= count != 0 && reached >> node & 1 == 0;
        }
        if stranded {
            return false;
        }
    }
    true
}
