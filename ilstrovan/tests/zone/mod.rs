//! The town with a zone that several tests have.

use second::draft::Draft;

/// A zone, node 1, between nodes 0 and 2, and a way round it by node 3.
pub fn zone() -> Draft {
    Draft {
        nodes: 4,
        links: vec![
            [0, 1, 5, 20, 2],
            [1, 2, 5, 0, 1],
            [0, 3, 10, 0, 1],
            [3, 2, 10, 0, 1],
        ],
        destinations: vec![2],
        trips: vec![vec![2, 1, 0, 0]],
    }
}
