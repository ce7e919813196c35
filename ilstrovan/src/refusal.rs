//! Refusals.

use std::error::Error;
use std::fmt;
use std::num::NonZeroU8;

/// What the numbers mean, from 1 on.
const WORDS: [&str; 25] = [
    "the file is not 32 to 65,536 bytes long",
    "the version is not 1, 2, 3 or 4",
    "nodes are not 2 to 128, links 1 to 512 or destinations 1 to 32, or there are more destinations than nodes",
    "the sections are not in order after the header and within the file, or the file is shorter than its version's header",
    "a section's length does not fit the counts",
    "a link's tail or head is no node, or they are the same",
    "a link's free time is not 1 to 16,383, its rise is above 16,383, its capacity is 0, or its power is not 1 to 4",
    "a destination is no node, or the destinations do not ascend strictly",
    "a destination has trips to itself",
    "there are more than 65,535 trips in all",
    "a node has trips to a destination to which it has no path that leads through no closed node and, for lorries, over no barred link",
    "the table holds fewer than destinations times links numbers, or the note fewer than 1 + destinations times nodes (in version 4, twice each product)",
    "the budget is not 1 to 1,024",
    "the share is not 1 to 1,024",
    "a link's total flow is above share times trips",
    "the table does not conserve",
    "the output is shorter than the packed study",
    "the page slice is shorter than 30 bytes a link",
    "a node's closed byte is neither 0 nor 1",
    "the table has flow on a link into a closed node that is not flow to that node, or lorries on a barred link",
    "the note does not lead from every node with trips to the destination, along links that may carry them",
    "the note has no fewer loadings than the share, or more than the table holds, or a share or flow to be halved is odd",
    "a link's barred byte is neither 0 nor 1",
    "the desks are not 1 to 8",
    "the allowance is not 1 to 8,192",
];

/// The first question that refused a call, or one of several desks. The call
/// changed nothing, or nothing at that desk.
#[derive(Clone, Copy, Debug, PartialEq, Eq)]
pub struct Refusal(NonZeroU8);

impl Refusal {
    /// What a call that returned this number comes to.
    pub(crate) fn of(number: u8) -> Result<(), Refusal> {
        match NonZeroU8::new(number) {
            None => Ok(()),
            Some(number) => Err(Refusal(number)),
        }
    }

    /// The question's number in document 01 or 02.
    pub fn number(self) -> u8 {
        self.0.get()
    }
}

impl fmt::Display for Refusal {
    fn fmt(&self, out: &mut fmt::Formatter<'_>) -> fmt::Result {
        let number = self.number();
        match WORDS.get(usize::from(number) - 1) {
            Some(words) => write!(out, "refused {number}: {words}"),
            None => write!(out, "refused {number}"),
        }
    }
}

impl Error for Refusal {}
