//! Notes in the making.

use super::{Dice, Draft, Versioned};
use crate::least_times::NO_LINK;
use crate::network::Class;

impl Draft {
    /// Numbers a note for this study must hold, 1 + p·n.
    pub fn note_length(&self) -> usize {
        1 + self.destinations.len() * usize::from(self.nodes)
    }
}

impl Versioned {
    /// Numbers a note for this study must hold: 1, and p·n for each class.
    pub fn note_length(&self) -> usize {
        1 + self.layout().classes * (self.draft.note_length() - 1)
    }

    /// A note of `step` loadings that leads from wherever there is a path to
    /// every destination, by ways at random.
    pub fn some_note(&self, dice: &mut Dice, step: u16) -> Vec<u16> {
        let mut note = vec![step];
        for class in self.classes() {
            for &destination in &self.draft.destinations {
                note.extend(self.some_next_links(dice, class, destination));
            }
        }
        note
    }

    /// A class's next links to one destination. From the destination on, one
    /// node after the other is given a link to a node that has its own.
    fn some_next_links(&self, dice: &mut Dice, class: Class, destination: u16) -> Vec<u16> {
        let links = &self.draft.links;
        let mut next_links = vec![NO_LINK; usize::from(self.draft.nodes)];
        loop {
            let leads = |node: u16| node == destination || next_links[usize::from(node)] != NO_LINK;
            let ways: Vec<usize> = (0..links.len())
                .filter(|&link| !leads(links[link][0]) && leads(links[link][1]))
                .filter(|&link| self.may_carry_class(class, link, destination))
                .collect();
            if ways.is_empty() {
                return next_links;
            }
            let link = dice.pick(&ways);
            next_links[usize::from(links[link][0])] = link as u16;
        }
    }

    /// Adds the loading of a note, as often as it says, to a table. The note
    /// leads from every node with trips to the destination.
    pub fn add_noted(&self, note: &[u16], table: &mut [u32]) {
        let links = &self.draft.links;
        let destinations = self.draft.destinations.iter().cycle();
        let noted = note[1..].chunks(usize::from(self.draft.nodes));
        let rows = self.rows();
        for (row, ((trips, noted), &destination)) in
            rows.iter().zip(noted).zip(destinations).enumerate()
        {
            for (node, &count) in (0..).zip(trips).filter(|&(_, &count)| count > 0) {
                let mut node: u16 = node;
                while node != destination {
                    let link = usize::from(noted[usize::from(node)]);
                    table[row * links.len() + link] += u32::from(note[0]) * u32::from(count);
                    node = links[link][1];
                }
            }
        }
    }
}
