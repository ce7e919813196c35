//! Runs of up to eight desks, whose turns go round.

use crate::network::{Adjacencies, Study};
use crate::questions::{LARGEST_ALLOWANCE, Question};
use crate::turns::{RunAnswer, Turns, WAITING, ask_run};

/// How many seats there are.
pub const SEATS: usize = 8;

/// What a seat is lent for the run of its desk.
#[derive(Debug, Default)]
pub struct Desk<'a> {
    /// The study file.
    pub file: &'a [u8],
    /// The flow table.
    pub table: &'a mut [u32],
    /// The budget.
    pub budget: u32,
    /// The excess.
    pub excess: u16,
}

/// What a call for desks answers.
#[derive(Clone, Copy, Debug, Default, PartialEq, Eq)]
pub struct DesksAnswer {
    /// 24 or 25 where the whole call is refused, or 0.
    pub refusal: u8,
    /// Turns of all desks together.
    pub turns: u32,
    /// What each desk's run answers, the number of its own refusal included; 0
    /// throughout where there is no desk.
    pub seats: [RunAnswer; SEATS],
}

/// A study that a desk's run is accepted with.
struct Accepted {
    /// The desk's seat.
    seat: usize,
    study: Study,
    /// Numbers of the table in use.
    used: usize,
}

impl Accepted {
    /// Puts questions 1 to 13 to the desk on a seat.
    #[inline]
    fn of(seat: usize, desk: &Desk<'_>) -> Result<Self, Question> {
        let study = Study::read(desk.file)?;
        let used = ask_run(&study, desk.table.len(), desk.budget)?;
        Ok(Accepted { seat, study, used })
    }
}

/// Goes round the unfinished desks in seat order and judges one table of each,
/// until all runs have ended or the allowance of turns is used up. The desks sit
/// on the first seats. Questions 24 and 25, then 1 to 13 for each desk by
/// itself: a desk that is refused takes no turn.
pub fn desks(seats: &mut [Desk<'_>; SEATS], desks: u32, allowance: u32) -> DesksAnswer {
    try_desks(seats, desks, allowance).unwrap_or_else(|question| DesksAnswer {
        refusal: question.number(),
        ..DesksAnswer::default()
    })
}

fn try_desks(
    seats: &mut [Desk<'_>; SEATS],
    desks: u32,
    allowance: u32,
) -> Result<DesksAnswer, Question> {
    Question::Desks.ask((1..=SEATS as u32).contains(&desks))?;
    Question::Allowance.ask((1..=LARGEST_ALLOWANCE).contains(&allowance))?;

    let mut answer = DesksAnswer::default();
    let desks = &mut seats[..desks as usize];
    let accepted = accept(desks, &mut answer.seats);
    let adjacencies: Vec<Adjacencies> = accepted
        .iter()
        .map(|accepted| Adjacencies::of(&accepted.study))
        .collect();
    let mut runs = start(&accepted, &adjacencies, desks);
    answer.turns = go_round(&mut runs, allowance, &mut answer.seats);
    Ok(answer)
}

/// Puts the questions of a run to each desk. The number that refuses one is
/// its answer.
fn accept(desks: &[Desk<'_>], answers: &mut [RunAnswer; SEATS]) -> Vec<Accepted> {
    let mut accepted = Vec::with_capacity(desks.len());
    for (seat, desk) in desks.iter().enumerate() {
        match Accepted::of(seat, desk) {
            Ok(own) => accepted.push(own),
            Err(question) => answers[seat] = RunAnswer::refused(question),
        }
    }
    accepted
}

/// The run of the desk on a seat.
struct Seated<'a> {
    seat: usize,
    run: Turns<'a>,
}

/// Starts the run of each accepted desk.
fn start<'a>(
    accepted: &'a [Accepted],
    adjacencies: &'a [Adjacencies],
    desks: &'a mut [Desk<'_>],
) -> Vec<Seated<'a>> {
    let mut desks = desks.iter_mut().enumerate();
    let accepted = accepted.iter().zip(adjacencies);
    accepted
        .map(|(accepted, adjacencies)| {
            let &Accepted {
                seat,
                ref study,
                used,
            } = accepted;
            let (_, desk) = desks
                .find(|(place, _)| *place == seat)
                .expect("the seat has a desk");
            let table = &mut desk.table[..used];
            let run = Turns::start(study, adjacencies, table, desk.budget, desk.excess);
            Seated { seat, run }
        })
        .collect()
}

/// Gives a turn to each unfinished run, again and again, until all have ended
/// or the allowance is used up. Hands back how many turns there were.
fn go_round(runs: &mut [Seated<'_>], allowance: u32, answers: &mut [RunAnswer; SEATS]) -> u32 {
    let mut unfinished: Vec<usize> = (0..runs.len()).collect();
    let mut turns = 0;
    while turns < allowance && !unfinished.is_empty() {
        unfinished.retain(|&place| {
            if turns == allowance {
                return true;
            }
            turns += 1;
            let Seated { seat, run } = &mut runs[place];
            let ending = run.turn();
            if let Some(ending) = ending {
                answers[*seat] = run.answer(ending);
            }
            ending.is_none()
        });
    }
    // The allowance cuts off the rest.
    for place in unfinished {
        let Seated { seat, run } = &runs[place];
        answers[*seat] = run.answer(WAITING);
    }
    turns
}
