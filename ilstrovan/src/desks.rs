//! Several desks, whose turns go round.

use crate::{Refusal, Run, sys};

/// The most desks that a call takes.
pub const SEATS: usize = 8;

/// Numbers that a seat answers: its refusal and those of a run.
const NUMBERS: usize = 7;

/// A study whose run is wanted, and what is lent for it.
#[derive(Debug, Default)]
pub struct Desk<'a> {
    /// The study file.
    pub file: &'a [u8],
    /// The flow table.
    pub table: &'a mut [u32],
    /// The most tables that its run judges, 1 to 1,024.
    pub budget: u32,
    /// The excess at which its run ends.
    pub excess: u16,
}

/// The answer for several desks.
#[derive(Clone, Copy, Debug, PartialEq, Eq)]
pub struct DesksAnswer {
    /// Turns of all desks together.
    pub turns: u32,
    /// What each seat's run answers, or what refused it; none where there is no
    /// desk.
    pub seats: [Option<Result<Run, Refusal>>; SEATS],
}

impl DesksAnswer {
    /// The answer for so many desks in these numbers.
    fn of(desks: usize, numbers: &[u64; 1 + NUMBERS * SEATS]) -> Self {
        let [turns, seats @ ..] = numbers;
        let mut answer = DesksAnswer {
            turns: *turns as u32,
            seats: [None; SEATS],
        };
        let (numbers, _) = seats.as_chunks::<NUMBERS>();
        for (seat, &[refusal, run @ ..]) in answer.seats.iter_mut().zip(numbers).take(desks) {
            let accepted = Refusal::of(refusal as u8);
            *seat = Some(accepted.map(|()| Run::of(run)));
        }
        answer
    }
}

/// Runs one to eight desks. Turns go round the unfinished desks in their order,
/// one judged table each, until all have ended or the allowance of turns, 1 to
/// 8,192, is used up.
///
/// A desk that ended has the answer and the table of [`run`](crate::run) with its
/// budget. A desk that the allowance cut off after some turns is
/// [waiting](crate::Ending::Waiting), and otherwise as a run with so many turns
/// for a budget leaves it; with no turn it has its table as started, share 1, and
/// all else 0. A desk whose run would be refused takes no turn, and its table is as
/// it was. Refusals of the whole call: 24 where the desks are not one to eight,
/// then 25.
///
/// ```
/// # let numbers: [u16; 29] = [
/// #     1, 2, 2, 1, 32, 0, 20, 0, 52, 0, 2, 0, 54, 0, 4, 0, //
/// #     0, 1, 10, 10, 2, 0, 1, 15, 0, 1, 1, 2, 0,
/// # ];
/// # let file: Vec<u8> = numbers.into_iter().flat_map(u16::to_le_bytes).collect();
/// use ilstrovan::{Desk, Ending};
///
/// // The town of two roads twice: to the end, and to a gap within 5 hundredths
/// // of a minute a trip.
/// let mut tables = [[0; 2]; 2];
/// let [first, second] = &mut tables;
/// let mut desks = [
///     Desk { file: &file, table: first, budget: 10, excess: 0 },
///     Desk { file: &file, table: second, budget: 10, excess: 5 },
/// ];
/// let answer = ilstrovan::desks(&mut desks, 3)?;
/// assert_eq!(answer.turns, 3);
///
/// // Turns 1 and 3 were the first desk's, turn 2 the second's.
/// let [Some(first), Some(second), ..] = answer.seats else {
///     panic!("there are two desks");
/// };
/// let (first, second) = (first?, second?);
/// assert_eq!((first.ending, first.judged), (Ending::Waiting, 2));
/// assert_eq!((second.ending, second.judged), (Ending::Reached, 1));
/// assert_eq!(tables, [[4, 0], [2, 0]]);
/// # Ok::<(), ilstrovan::Refusal>(())
/// ```
pub fn desks(desks: &mut [Desk<'_>], allowance: u32) -> Result<DesksAnswer, Refusal> {
    let mut seats = [sys::Seat::default(); SEATS];
    let (mut budgets, mut excesses) = ([0; SEATS], [0; SEATS]);
    for (place, desk) in desks.iter_mut().enumerate().take(SEATS) {
        seats[place] = sys::Seat::of(desk.file, desk.table);
        (budgets[place], excesses[place]) = (desk.budget, desk.excess);
    }
    let count = u32::try_from(desks.len()).unwrap_or(u32::MAX);
    let mut answer = [0; 1 + NUMBERS * SEATS];
    // SAFETY: each pointer and length of a seat are those of one slice, and nothing
    // else refers to what is lent mutably; budgets and excesses are arrays of eight
    // numbers, and `answer` is one of 57.
    let number = unsafe {
        sys::ilstrovan_desks_at(&seats, count, allowance, &budgets, &excesses, &mut answer)
    };
    Refusal::of(number)?;
    Ok(DesksAnswer::of(desks.len(), &answer))
}
