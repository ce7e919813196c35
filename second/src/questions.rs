//! The questions a call puts before it does anything, and their numbers.

/// The largest share that a lent table is accepted with, and a run ever
/// reaches.
pub const LARGEST_SHARE: u32 = 1_024;

/// The largest budget a run accepts.
pub const LARGEST_BUDGET: u32 = 1_024;

/// The most turns that a call for desks may make.
pub const LARGEST_ALLOWANCE: u32 = 8_192;

/// The largest total of trips.
pub const LARGEST_TOTAL: u32 = 65_535;

/// A question; used as an error it is the first question answered "no".
///
/// They are put in the order of their numbers, but for 19 and 23, which come
/// after 8 in this order, 20, which comes after 16 and before 18 and 21, and 24
/// and 25, which come before all others.
#[derive(Clone, Copy, Debug, PartialEq, Eq)]
#[repr(u8)]
pub enum Question {
    /// 1: is the file 32 to 65,536 bytes long?
    FileLength = 1,
    /// 2: is the version one there is?
    Version = 2,
    /// 3: are the three counts within their limits?
    Counts = 3,
    /// 4: do the sections follow one another within the file?
    Offsets = 4,
    /// 5: do the section lengths fit the counts?
    Lengths = 5,
    /// 6: are each link's ends nodes, and different?
    Ends = 6,
    /// 7: are each link's free time, rise, capacity and power within their
    /// limits?
    Roads = 7,
    /// 8: are the destinations nodes, strictly ascending?
    Destinations = 8,
    /// 9: does no destination have trips to itself?
    OwnTrips = 9,
    /// 10: is the total of trips, of both classes, at most 65,535?
    Total = 10,
    /// 11: does every node with trips have a path?
    Paths = 11,
    /// 12: are the flow table and the note long enough?
    TableLength = 12,
    /// 13: is the budget 1 to 1,024?
    Budget = 13,
    /// 14: is the share 1 to 1,024?
    Share = 14,
    /// 15: is each link's total flow at most share × T?
    TotalFlow = 15,
    /// 16: does the table conserve?
    Conservation = 16,
    /// 17: is the output slice long enough?
    OutputLength = 17,
    /// 18: is the page slice long enough?
    PageLength = 18,
    /// 19: is each closed byte 0 or 1?
    ClosedBytes = 19,
    /// 20: may every link carry the flow it has?
    Carrying = 20,
    /// 21: does the note lead from every node with trips to the destination?
    NotedPaths = 21,
    /// 22: can what the note says be taken out of the table and its share?
    NotedFlow = 22,
    /// 23: is each barred byte 0 or 1?
    BarredBytes = 23,
    /// 24: are there 1 to 8 desks?
    Desks = 24,
    /// 25: is the allowance 1 to 8,192?
    Allowance = 25,
}

impl Question {
    /// Puts this question: `Ok` when the answer is yes.
    #[inline]
    pub fn ask(self, yes: bool) -> Result<(), Question> {
        if yes { Ok(()) } else { Err(self) }
    }

    /// The number a refusal carries.
    #[inline]
    pub fn number(self) -> u8 {
        self as u8
    }
}
