//! A run, one turn after the other. A turn judges one table.

use crate::assignment::{Assignment, Move};
use crate::network::{Adjacencies, Study};
use crate::questions::{LARGEST_BUDGET, Question};
use crate::tables::ask_length;

/// A run ended within its excess.
pub const REACHED: u8 = 1;
/// A run ended at a table without a move.
pub const RUN_FINEST: u8 = 2;
/// A run ended with its budget.
pub const SPENT: u8 = 3;
/// The allowance ended before the run of a desk.
pub const WAITING: u8 = 4;

/// What a run answers.
#[derive(Clone, Copy, Debug, Default, PartialEq, Eq)]
pub struct RunAnswer {
    /// The first question answered "no", or 0.
    pub refusal: u8,
    /// 0 refused, 1 reached, 2 finest, 3 spent; of a desk, 4 waiting too.
    pub ending: u8,
    /// Tables judged.
    pub judged: u32,
    /// Share of the last judged table.
    pub share: u32,
    /// Gap of the last judged table.
    pub gap: u64,
    /// Cost of the last judged table.
    pub cost: u64,
    /// Links of the last judged table on step 256.
    pub over: u32,
}

impl RunAnswer {
    /// The answer of a run that is refused.
    pub fn refused(question: Question) -> Self {
        RunAnswer {
            refusal: question.number(),
            ..RunAnswer::default()
        }
    }
}

/// Puts questions 12 and 13 of a run, to a table's length and a budget. Hands
/// back the length in use.
pub fn ask_run(study: &Study, length: usize, budget: u32) -> Result<usize, Question> {
    let used = ask_length(study, length)?;
    Question::Budget.ask((1..=LARGEST_BUDGET).contains(&budget))?;
    Ok(used)
}

/// A run between two turns.
///
/// The table is the one judged last, or as a start leaves it before the first
/// turn. The move away from it is made at the beginning of the next turn.
pub struct Turns<'a> {
    assignment: Assignment<'a>,
    /// The table as long as it is used.
    table: &'a mut [u32],
    budget: u32,
    /// Excess × T.
    allowed_by_share: u64,
    /// Tables judged so far.
    judged: u32,
    /// Gap of the table judged last, and the move away from it.
    gap: u64,
    chosen: Option<Move>,
}

impl<'a> Turns<'a> {
    /// Starts a run with this table, all of which is used, budget and excess.
    #[inline]
    pub fn start(
        study: &'a Study,
        adjacencies: &'a Adjacencies,
        table: &'a mut [u32],
        budget: u32,
        excess: u16,
    ) -> Self {
        Turns {
            assignment: Assignment::start(study, adjacencies, table),
            table,
            budget,
            // At most 65,535 · 1,024 · 65,535 with the share, well within 64
            // bits.
            allowed_by_share: u64::from(excess) * u64::from(study.total),
            judged: 0,
            gap: 0,
            chosen: None,
        }
    }

    /// Judges the next table. Hands back the ending if the run ends with it.
    #[inline]
    pub fn turn(&mut self) -> Option<u8> {
        self.move_on();
        let assignment = &self.assignment;
        self.judged += 1;
        self.gap = assignment.gap_from_loading();
        if self.gap <= self.allowed_by_share * u64::from(assignment.share()) {
            return Some(REACHED);
        }
        self.chosen = assignment.choose_move();
        if self.chosen.is_none() {
            return Some(RUN_FINEST);
        }
        (self.judged == self.budget).then_some(SPENT)
    }

    /// Goes on to the next table, the first one being the start's.
    #[inline]
    fn move_on(&mut self) {
        match self.chosen {
            Some(chosen) => self.assignment.make_move(chosen, self.table),
            None => self.assignment.take_loading(),
        }
        // Doubling both flow and share changes no time, and with no time no
        // distance and no loading.
        if self.chosen != Some(Move::Double) {
            self.assignment.find_times();
            self.assignment.find_loading();
        }
    }

    /// What is answered for the table judged last, with this ending. Before the
    /// first turn the assignment has empty roads, at no cost and with no link
    /// over.
    pub fn answer(&self, ending: u8) -> RunAnswer {
        let (cost, over) = self.assignment.cost_and_over();
        RunAnswer {
            refusal: 0,
            ending,
            judged: self.judged,
            share: self.assignment.share(),
            gap: self.gap,
            cost,
            over,
        }
    }
}
