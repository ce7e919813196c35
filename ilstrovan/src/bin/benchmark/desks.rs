//! Desks beside the second implementation's, and beside the same desks' runs
//! alone, each of which judges as many tables as its desk. An earlier build has no
//! such call.

use std::hint::black_box;

use ilstrovan::{Ending, SEATS};

use crate::measure::{Comparison, compare};
use crate::studies::Study;

/// The largest allowance, which is enough for eight runs to their ends.
const AMPLE: u32 = 8_192;

/// An allowance that ends soon.
const TIGHT: u32 = 20;

/// Every desk's budget.
const BUDGET: u32 = 1_024;

/// Prints the comparison of several queues, with every allowance.
pub fn print(studies: &[Study]) {
    println!(
        "| desks | allowance | turns | Rattle, µs | Rust, µs | Rattle ÷ Rust | runs alone, µs | Rattle ÷ runs alone |"
    );
    println!("|---|---:|---:|---:|---:|---:|---:|---:|");
    for queue in queues(studies) {
        for allowance in queue.allowances() {
            let (turns, comparison) = queue.comparison(allowance);
            println!("| {} | {allowance} | {turns} | {comparison} |", queue.name);
        }
    }
}

/// The queues that are timed: of the town, of Sioux Falls, of networks of eight
/// sizes, and of the largest grid.
fn queues(studies: &[Study]) -> [Queue<'_>; 5] {
    let queue = |name, names: &[&str]| Queue {
        name,
        studies: names.iter().map(|name| find(studies, name)).collect(),
    };
    let sizes = [
        "grid 4 by 4",
        "random 16",
        "grid 8 by 4",
        "random 32",
        "grid 8 by 8",
        "random 64",
        "grid 16 by 8",
        "random 128",
    ];
    [
        queue("1 of town", &["town"]),
        queue("8 of town", &["town"; SEATS]),
        queue("8 of Sioux Falls", &["Sioux Falls"; SEATS]),
        queue("grids and random networks of 16 to 128 nodes", &sizes),
        queue("8 of grid 16 by 8", &["grid 16 by 8"; SEATS]),
    ]
}

fn find<'a>(studies: &'a [Study], name: &str) -> &'a Study {
    let mut named = studies.iter().filter(|study| study.name() == name);
    named.next().expect("a study of this name")
}

/// Studies that are run together, with excess 0.
struct Queue<'a> {
    name: &'static str,
    studies: Vec<&'a Study>,
}

impl Queue<'_> {
    /// Room for all tables, one after the other.
    fn room(&self) -> Vec<u32> {
        vec![0; self.studies.iter().map(|study| study.table_length).sum()]
    }

    /// An ample allowance, half of the turns that are made then, and a tight one,
    /// as far as they make a difference.
    fn allowances(&self) -> Vec<u32> {
        let all = self.second(&mut self.room(), AMPLE).turns;
        let mut allowances = vec![AMPLE, all / 2, TIGHT];
        allowances.retain(|&allowance| allowance == AMPLE || allowance < all);
        allowances.dedup();
        allowances
    }

    fn proved(&self, room: &mut [u32], allowance: u32) -> ilstrovan::DesksAnswer {
        let mut tables = self.tables(room);
        let mut desks: [_; SEATS] = std::array::from_fn(|seat| ilstrovan::Desk {
            file: self.file(seat),
            table: std::mem::take(&mut tables[seat]),
            budget: BUDGET,
            excess: 0,
        });
        let desks = &mut desks[..self.studies.len()];
        ilstrovan::desks(desks, allowance).expect("accepted")
    }

    fn second(&self, room: &mut [u32], allowance: u32) -> second::DesksAnswer {
        let mut tables = self.tables(room);
        let mut desks = std::array::from_fn(|seat| second::Desk {
            file: self.file(seat),
            table: std::mem::take(&mut tables[seat]),
            budget: BUDGET,
            excess: 0,
        });
        second::desks(&mut desks, self.studies.len() as u32, allowance)
    }

    /// The proved runs alone, each of which judges so many tables, or starts for
    /// those that judge none.
    fn alone(&self, room: &mut [u32], judged: [u32; SEATS]) {
        let tables = self.tables(room).into_iter().zip(judged);
        for (study, (table, judged)) in self.studies.iter().zip(tables) {
            match judged {
                0 => ilstrovan::start(&study.file, table).expect("accepted"),
                _ => _ = black_box(ilstrovan::run(&study.file, table, judged, 0)),
            }
        }
    }

    /// A seat's file, empty where there is no desk.
    fn file(&self, seat: usize) -> &[u8] {
        self.studies.get(seat).map_or(&[], |study| &study.file)
    }

    /// The tables of the seats, empty where there is no desk.
    fn tables<'a>(&self, mut room: &'a mut [u32]) -> [&'a mut [u32]; SEATS] {
        std::array::from_fn(|seat| {
            let length = self.studies.get(seat).map_or(0, |study| study.table_length);
            room.split_off_mut(..length).expect("room for all tables")
        })
    }

    /// Sees that all leave the same before they are timed. Hands back how many
    /// tables each desk judges.
    fn agree(&self, allowance: u32) -> [u32; SEATS] {
        let mut rooms = [(); 3].map(|()| self.room());
        let [first, second, third] = &mut rooms;
        let proved = self.proved(first, allowance);
        let answer = self.second(second, allowance);
        let judged = answer.seats.map(|own| own.judged);
        self.alone(third, judged);
        assert_eq!(proved.turns, answer.turns);
        for (own, other) in proved.seats.iter().flatten().zip(answer.seats) {
            let own = own.expect("accepted");
            let waiting = other.ending == second::WAITING;
            assert_eq!(own.ending == Ending::Waiting, waiting);
            assert_eq!((own.judged, own.share), (other.judged, other.share));
            assert_eq!((own.gap, own.cost), (other.gap, other.cost));
            assert_eq!(own.over, other.over);
        }
        assert!(first == second && first == third);
        judged
    }

    /// How many turns there are, and the times.
    fn comparison(&self, allowance: u32) -> (u32, Comparison) {
        let judged = self.agree(allowance);
        let comparison = compare(
            &self.room(),
            &mut [
                &mut |room| _ = black_box(self.proved(room, allowance)),
                &mut |room| _ = black_box(self.second(room, allowance)),
                &mut |room| self.alone(room, judged),
            ],
        );
        (judged.iter().sum(), comparison)
    }
}
