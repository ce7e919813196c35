//! Lorries in drafts: their trips, the links barred to them, and what both
//! classes come to together.

use std::borrow::Cow;

use super::{Dice, Draft, Versioned, sum};
use crate::network::Class;
use crate::questions::LARGEST_TOTAL;

impl Draft {
    /// This study in version 4, with these lorry trips, for each destination by
    /// node, and no barred link.
    pub fn with_lorries(self, trips: Vec<Vec<u16>>) -> Versioned {
        Versioned::from(self).with_lorries(trips)
    }

    /// This study in version 4, with lorry trips at random and no barred link.
    pub fn with_some_lorries(self, dice: &mut Dice, tenths: u64) -> Versioned {
        Versioned::from(self).with_some_lorries(dice, tenths)
    }
}

impl Versioned {
    /// This study in version 4, with these lorry trips, for each destination by
    /// node.
    pub fn with_lorries(self, trips: Vec<Vec<u16>>) -> Versioned {
        Versioned {
            lorries: Some(trips),
            ..self
        }
    }

    /// This study in version 4, with lorry trips at random: from about so many
    /// nodes in ten, none of more trips than the most that cars have, and without
    /// those that have no path. The total of both classes is brought down to
    /// what is accepted.
    pub fn with_some_lorries(self, dice: &mut Dice, tenths: u64) -> Versioned {
        let most = self.draft.trips.iter().flatten().max();
        let most = u64::from(*most.unwrap_or(&0)).max(1);
        let mut trips = self.draft.trips.clone();
        for count in trips.iter_mut().flatten() {
            let some = dice.below(10) < tenths;
            *count = u16::from(some) * dice.between(0, most) as u16;
        }
        let mut study = self.with_lorries(trips);
        study.drop_pathless_trips();
        study.limit_total(u64::from(LARGEST_TOTAL));
        study
    }

    /// This study in version 4, with these barred bytes by link.
    pub fn with_barred(self, barred: Vec<u8>) -> Versioned {
        Versioned {
            barred: Some(barred),
            ..self
        }
    }

    /// This study in version 4, with these links barred to lorries and no
    /// others.
    pub fn barring(self, links: &[usize]) -> Versioned {
        let barred = (0..self.draft.links.len()).map(|link| u8::from(links.contains(&link)));
        let barred = barred.collect();
        self.with_barred(barred)
    }

    /// This study in version 4, with some links barred to lorries, about so many
    /// in ten, and without the trips that have no path then.
    pub fn barring_some(self, dice: &mut Dice, tenths: u64) -> Versioned {
        let barred = self.draft.links.iter();
        let barred = barred.map(|_| u8::from(dice.below(10) < tenths)).collect();
        let mut study = self.with_barred(barred);
        study.drop_pathless_trips();
        study
    }

    /// Whether a link is barred to lorries.
    pub fn is_barred(&self, link: usize) -> bool {
        let barred = self.barred.as_deref().unwrap_or(&[]);
        barred.get(link) == Some(&1)
    }

    /// The classes of this study's version.
    pub fn classes(&self) -> impl Iterator<Item = Class> {
        Class::ALL.into_iter().take(self.layout().classes)
    }

    /// For each destination, a class's trips by node.
    pub fn trips_of(&self, class: Class) -> Cow<'_, [Vec<u16>]> {
        match (class, &self.lorries) {
            (Class::Cars, _) => Cow::Borrowed(&self.draft.trips),
            (Class::Lorries, Some(trips)) => Cow::Borrowed(trips),
            (Class::Lorries, None) => {
                let rows = self.draft.trips.iter();
                Cow::Owned(rows.map(|row| vec![0; row.len()]).collect())
            }
        }
    }

    /// The trips of all rows by node: for each class, for each destination.
    pub fn rows(&self) -> Vec<Vec<u16>> {
        let classes = self.classes();
        classes
            .flat_map(|class| self.trips_of(class).into_owned())
            .collect()
    }

    /// The study of version 1 with a class's trips.
    pub(super) fn draft_of(&self, class: Class) -> Cow<'_, Draft> {
        match class {
            Class::Cars => Cow::Borrowed(&self.draft),
            Class::Lorries => Cow::Owned(Draft {
                trips: self.trips_of(class).into_owned(),
                ..self.draft.clone()
            }),
        }
    }

    /// Numbers a table for this study must hold: p·m for each class.
    pub fn table_length(&self) -> usize {
        self.layout().classes * self.draft.table_length()
    }

    /// The total of trips of all classes, T.
    pub fn total(&self) -> u64 {
        sum(&self.rows())
    }

    /// Brings the total of trips down to `most` at most by halving all of them.
    pub fn limit_total(&mut self, most: u64) {
        while self.total() > most {
            let cars = self.draft.trips.iter_mut();
            let lorries = self.lorries.iter_mut().flatten();
            for count in cars.chain(lorries).flatten() {
                *count /= 2;
            }
        }
    }
}
