//! Lent flow tables: question 12, for notes too, and questions 15, 16 and 20
//! for tables that anybody may have made.
//!
//! A table has a row of m numbers for each row of the study's trips.

use crate::format::MOST_LINKS;
use crate::network::{Adjacency, ByLink, Class, Study, at_link};
use crate::questions::Question;

/// Question 12, put to a table's length. Hands back the length in use.
pub fn ask_length(study: &Study, length: usize) -> Result<usize, Question> {
    let used = study.table_length();
    Question::TableLength.ask(length >= used)?;
    Ok(used)
}

/// Question 12, put to a note's length. Hands back the length in use.
pub fn ask_note_length(study: &Study, length: usize) -> Result<usize, Question> {
    let used = study.note_length();
    Question::TableLength.ask(length >= used)?;
    Ok(used)
}

/// Each link's total over destinations and classes, S, in a table as long as it
/// is used; with it question 15.
pub fn ask_totals(study: &Study, table: &[u32], share: u32) -> Result<ByLink<u32>, Question> {
    // Any numbers may stand in the table, so the totals are taken in 64 bits.
    let mut sums = [0_u64; MOST_LINKS];
    for row in table.chunks_exact(study.links) {
        for (sum, &flow) in sums.iter_mut().zip(row) {
            *sum += u64::from(flow);
        }
    }
    let most = u64::from(share) * u64::from(study.total);
    Question::TotalFlow.ask(sums.iter().all(|&sum| sum <= most))?;
    // At most 1,024 · 65,535 now.
    Ok(sums.map(|sum| sum as u32))
}

/// Question 16, for a table as long as it is used, over all links.
pub fn ask_conservation(
    study: &Study,
    adjacency: &Adjacency,
    table: &[u32],
    share: u32,
) -> Result<(), Question> {
    let share = u64::from(share);
    let conserves =
        study
            .rows()
            .zip(table.chunks_exact(study.links))
            .all(|((destination, trips), row)| {
                let sum = |links: &[u16]| -> u64 {
                    links
                        .iter()
                        .map(|&link| u64::from(row[usize::from(link)]))
                        .sum()
                };
                trips.iter().enumerate().all(|(node, &count)| {
                    let node = node as u8;
                    let leaving = sum(adjacency.out.links_of(node));
                    let entering = sum(adjacency.into.links_of(node));
                    node == destination || leaving == entering + share * u64::from(count)
                })
            });
    Question::Conservation.ask(conserves)
}

/// Question 20, for a table as long as it is used with these totals by link.
pub fn ask_carrying(
    study: &Study,
    adjacency: &Adjacency,
    table: &[u32],
    totals: &ByLink<u32>,
) -> Result<(), Question> {
    let off_closed_nodes = keeps_off_closed_nodes(study, adjacency, table, totals);
    Question::Carrying.ask(off_closed_nodes && keeps_off_barred_links(study, table))
}

/// Whether every entry above 0 on a link into a closed node is of flow to that
/// node.
///
/// As no entry is below 0, all other entries of such a link are 0 when these,
/// one for each class, are its whole total.
fn keeps_off_closed_nodes(
    study: &Study,
    adjacency: &Adjacency,
    table: &[u32],
    totals: &ByLink<u32>,
) -> bool {
    study.closed_nodes().all(|node| {
        let destinations = &study.destinations[..study.destination_count];
        let position = destinations.binary_search(&node).ok();
        adjacency.into.links_of(node).iter().all(|&link| {
            let own = |position: usize| -> u32 {
                let rows = (position..study.row_count()).step_by(study.destination_count);
                rows.map(|row| table[row * study.links + usize::from(link)])
                    .sum()
            };
            totals[at_link(link)] == position.map_or(0, own)
        })
    })
}

/// Whether every entry of lorries above 0 is on a link that is not barred.
fn keeps_off_barred_links(study: &Study, table: &[u32]) -> bool {
    if !study.has_barred_links() {
        return true;
    }
    let first = study.rows_of(Class::Lorries).start * study.links;
    table[first..].chunks_exact(study.links).all(|row| {
        let flows = row.iter().zip(&study.barred);
        flows.fold(0, |all, (&flow, &barred)| all | (flow * u32::from(barred))) == 0
    })
}
