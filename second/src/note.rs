//! Notes, which anybody may have made, and what is taken back by them:
//! questions 21 and 22.

use crate::format::MOST_NODES;
use crate::least_times::{NO_LINK, Tree};
use crate::loading::load;
use crate::network::{ByNode, Class, Study, at_link, at_node};
use crate::questions::Question;

/// The loading of a note: places in a table, and the trips there.
pub type NotedLoading = Vec<(u32, u32)>;

/// Question 21, put to the next links of a note, n for each row of trips. Hands
/// back the note's loading.
///
/// The trips to a destination are sent along those numbers that can be next
/// links. They stay at a node with another number and where the links go round.
/// So all of them arrive exactly when the note leads from every node with trips
/// to the destination; and a way that goes round nowhere has less than n links.
pub fn ask_paths(study: &Study, next_links: &[u16]) -> Result<NotedLoading, Question> {
    let nodes: Vec<u8> = (0..study.nodes as u8).collect();
    let mut leaving = [0; MOST_NODES];
    let mut loading = Vec::with_capacity(next_links.len());
    let noted = next_links.chunks_exact(study.nodes);
    for (row, ((destination, trips), noted)) in study.rows().zip(noted).enumerate() {
        let all: u32 = trips.iter().map(|&count| u32::from(count)).sum();
        if all == 0 {
            continue;
        }
        let mut links = links_that_fit(study, destination, noted);
        if study.rows_of(Class::Lorries).contains(&row) {
            drop_barred(study, &mut links);
        }
        let tree = Tree::new(&nodes, &links);
        let first = row * study.links;
        load(&study.heads, tree, trips, &mut leaving, |link, flow| {
            loading.push(((first + link) as u32, flow));
        });
        Question::NotedPaths.ask(leaving[at_node(destination)] == all)?;
    }
    Ok(loading)
}

/// A row of a note by node, without the numbers that cannot be a node's next
/// link towards the destination: those that are no links out of the node, or
/// links that may not carry flow to the destination. The destination has none.
fn links_that_fit(study: &Study, destination: u8, row: &[u16]) -> ByNode<u16> {
    let mut links = [NO_LINK; MOST_NODES];
    for (node, (link, &noted)) in (0..).zip(links.iter_mut().zip(row)) {
        let head = study.heads[at_link(noted)];
        let open = study.closed >> at_node(head) & 1 == 0;
        let fits = usize::from(noted) < study.links
            && study.tails[at_link(noted)] == node
            && (open || head == destination);
        if fits {
            *link = noted;
        }
    }
    links[at_node(destination)] = NO_LINK;
    links
}

/// Takes the barred links away.
fn drop_barred(study: &Study, links: &mut ByNode<u16>) {
    for link in &mut links[..study.nodes] {
        if *link != NO_LINK && study.barred[usize::from(*link)] {
            *link = NO_LINK;
        }
    }
}

/// Question 22 for a loading that a move added `step` times. Takes it out of
/// the table and hands back the share that is left.
pub fn take_out(
    loading: &NotedLoading,
    step: u32,
    table: &mut [u32],
    share: u32,
) -> Result<u32, Question> {
    Question::NotedFlow.ask(step < share)?;
    // The share is at most 1,024 and no flow more than 65,535.
    let parts = loading
        .iter()
        .map(|&(place, flow)| (place as usize, step * flow));
    Question::NotedFlow.ask(parts.clone().all(|(place, part)| table[place] >= part))?;
    parts.for_each(|(place, part)| table[place] -= part);
    Ok(share - step)
}

/// Question 22 for a doubling. Halves the table, all of which is used, and hands
/// back half the share.
pub fn halve(table: &mut [u32], share: u32) -> Result<u32, Question> {
    let all = table.iter().fold(share, |all, &flow| all | flow);
    Question::NotedFlow.ask(all % 2 == 0)?;
    table.iter_mut().for_each(|flow| *flow /= 2);
    Ok(share / 2)
}
