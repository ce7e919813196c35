//! Notes: what taking back leaves by its definition, and notes, shares and tables
//! that are not what a pass left.

use ilstrovan::NO_LINK;
use second::draft::{Dice, Versioned};
use second::network::Class;

/// Why taking back is refused, after questions 1 to 20.
#[derive(Clone, Copy, Debug, PartialEq, Eq)]
pub enum Why {
    NoLink,
    LinkOfAnotherNode,
    ClosedNode,
    BarredLink,
    Round,
    WholeShare,
    TooLittleFlow,
    OddShare,
    OddFlow,
}

impl Why {
    pub const COUNT: usize = 9;

    pub const ALL: [Why; Why::COUNT] = [
        Why::NoLink,
        Why::LinkOfAnotherNode,
        Why::ClosedNode,
        Why::BarredLink,
        Why::Round,
        Why::WholeShare,
        Why::TooLittleFlow,
        Why::OddShare,
        Why::OddFlow,
    ];

    /// The question's number.
    pub fn number(self) -> u8 {
        match self {
            Why::WholeShare | Why::TooLittleFlow | Why::OddShare | Why::OddFlow => 22,
            _ => 21,
        }
    }
}

/// The class and the destination of a row. Tables and notes have a row for each
/// destination, those of cars first.
fn row_of(study: &Versioned, row: usize) -> (Class, u16) {
    let destinations = &study.draft.destinations;
    let count = destinations.len();
    (Class::ALL[row / count], destinations[row % count])
}

/// The links from a node to the destination of a row, as a note has them.
pub fn way(study: &Versioned, note: &[u16], row: usize, from: u16) -> Result<Vec<usize>, Why> {
    let draft = &study.draft;
    let nodes = usize::from(draft.nodes);
    let (class, destination) = row_of(study, row);
    let next_links = &note[1 + row * nodes..][..nodes];
    let (mut node, mut links) = (from, vec![]);
    while node != destination {
        let link = usize::from(next_links[usize::from(node)]);
        let &[tail, head, ..] = draft.links.get(link).ok_or(Why::NoLink)?;
        if tail != node {
            return Err(Why::LinkOfAnotherNode);
        }
        if !study.may_carry(link, destination) {
            return Err(Why::ClosedNode);
        }
        if class == Class::Lorries && study.is_barred(link) {
            return Err(Why::BarredLink);
        }
        if links.len() == nodes {
            return Err(Why::Round);
        }
        links.push(link);
        node = head;
    }
    Ok(links)
}

/// Every node with trips, with their row and their count.
fn trips(study: &Versioned) -> Vec<(usize, u16, u16)> {
    let rows = study.rows().into_iter().enumerate();
    let all = rows.flat_map(|(row, trips)| {
        let counts = (0..).zip(trips);
        counts.map(move |(node, count)| (row, node, count))
    });
    all.filter(|&(_, _, count)| count > 0).collect()
}

/// The loading of a note, by place in a table.
fn loading(study: &Versioned, note: &[u16]) -> Result<Vec<u64>, Why> {
    let mut loading = vec![0; study.table_length()];
    for (row, node, count) in trips(study) {
        for link in way(study, note, row, node)? {
            loading[row * study.draft.links.len() + link] += u64::from(count);
        }
    }
    Ok(loading)
}

/// What taking back leaves of a table that questions 1 to 20 accept, and the
/// share, or why it is refused: all by the definition.
pub fn defined(
    study: &Versioned,
    table: &[u32],
    share: u32,
    note: &[u16],
) -> Result<(Vec<u32>, u32), Why> {
    let mut left = table.to_vec();
    let flows = &mut left[..study.table_length()];
    let step = u32::from(note[0]);
    if step == 0 {
        halve(flows, share)?;
        return Ok((left, share / 2));
    }
    let loading = loading(study, note)?;
    if step >= share {
        return Err(Why::WholeShare);
    }
    for (flow, load) in flows.iter_mut().zip(loading) {
        let rest = u64::from(*flow).checked_sub(u64::from(step) * load);
        *flow = rest.ok_or(Why::TooLittleFlow)? as u32;
    }
    Ok((left, share - step))
}

fn halve(flows: &mut [u32], share: u32) -> Result<(), Why> {
    if !share.is_multiple_of(2) {
        return Err(Why::OddShare);
    }
    for flow in flows {
        if !flow.is_multiple_of(2) {
            return Err(Why::OddFlow);
        }
        *flow /= 2;
    }
    Ok(())
}

/// The note of a doubling.
pub fn doubling(study: &Versioned) -> Vec<u16> {
    let mut note = vec![NO_LINK; study.note_length()];
    note[0] = 0;
    note
}

/// How many loadings a note has: about as many as the share or as `near`, or any
/// number.
pub fn any_step(dice: &mut Dice, share: u32, near: u16) -> u16 {
    let share = share as u16;
    let any = dice.any_u32() as u16;
    dice.pick(&[
        0,
        1,
        2,
        near.wrapping_add(1),
        near.wrapping_sub(1),
        share.wrapping_sub(1),
        share,
        share.wrapping_add(1),
        1_024,
        65_535,
        any,
    ])
}

/// A share that is not the table's.
pub fn wrong_share(dice: &mut Dice, share: u32) -> u32 {
    let any = dice.any_u32();
    dice.pick(&[0, share - 1, share + 1, 2 * share, share / 2, 1_025, any])
}

/// The note with one to three of its links changed, mostly those of nodes with
/// trips, and sometimes the number of its loadings.
pub fn damaged(dice: &mut Dice, study: &Versioned, note: &[u16], share: u32) -> Vec<u16> {
    let mut other = note.to_vec();
    let nodes = usize::from(study.draft.nodes);
    let trips = trips(study);
    for _ in 0..dice.between(1, 3) {
        let (row, node) = if trips.is_empty() || dice.once_in(6) {
            let row = dice.index(study.rows().len());
            (row, dice.index(nodes) as u16)
        } else {
            let (row, node, _) = dice.pick(&trips);
            (row, along(dice, study, &other, row, node))
        };
        let link = another_link(dice, study, &other, row, node);
        other[1 + row * nodes + usize::from(node)] = link;
    }
    if dice.once_in(6) {
        other[0] = any_step(dice, share, note[0]);
    }
    other
}

/// A node on the way from here by a note, this one or a later one.
fn along(dice: &mut Dice, study: &Versioned, note: &[u16], row: usize, node: u16) -> u16 {
    match way(study, note, row, node) {
        Ok(links) if !links.is_empty() => study.draft.links[dice.pick(&links)][0],
        _ => node,
    }
}

/// What a damaged note has for a node: a link out of another node, none that there
/// is, one that may not carry its flow, one back to where its own way comes from,
/// or any link out of it.
fn another_link(dice: &mut Dice, study: &Versioned, note: &[u16], row: usize, node: u16) -> u16 {
    let draft = &study.draft;
    let (class, destination) = row_of(study, row);
    let links = |fits: &dyn Fn(usize) -> bool| -> Vec<usize> {
        let all = 0..draft.links.len();
        all.filter(|&link| fits(link)).collect()
    };
    let own = |link: usize| draft.links[link][0] == node;
    let back = |link: usize| {
        let way = way(study, note, row, draft.links[link][1]);
        way.is_ok_and(|way| way.iter().any(|&link| own(link)))
    };
    let chosen = match dice.below(8) {
        0 => links(&|link| !own(link)),
        1 => vec![],
        2 => links(&|link| own(link) && !study.may_carry_class(class, link, destination)),
        3 | 4 => links(&|link| own(link) && back(link)),
        _ => links(&own),
    };
    if chosen.is_empty() {
        return no_link(dice, draft.links.len() as u16);
    }
    dice.pick(&chosen) as u16
}

/// A number that is no link's.
fn no_link(dice: &mut Dice, links: u16) -> u16 {
    let link = dice.below(u64::from(links)) as u16;
    let near = [links, links + 1, link + 512, link + 32_768];
    let far = [512, 1_024, 65_534, NO_LINK];
    dice.pick(&[near, far].concat())
}

/// Sends a part or two of some node's trips by other links than a note does, or
/// than they may have gone: the table conserves as before.
pub fn shift(dice: &mut Dice, study: &Versioned, table: &mut [u32], note: &[u16]) {
    let trips = trips(study);
    if trips.is_empty() {
        return;
    }
    let (row, node, _) = dice.pick(&trips);
    let (one, other) = (study.some_note(dice, 1), study.some_note(dice, 1));
    let from = way(study, note, row, node).or_else(|_| way(study, &one, row, node));
    let to = way(study, &other, row, node);
    let (Ok(from), Ok(to)) = (from, to) else {
        return;
    };
    let parts = dice.between(1, 2) as u32;
    let flows = &mut table[row * study.draft.links.len()..];
    if from.iter().all(|&link| flows[link] >= parts) {
        from.iter().for_each(|&link| flows[link] -= parts);
        to.iter().for_each(|&link| flows[link] += parts);
    }
}
