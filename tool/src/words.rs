//! Plain words for the numbers: what each refusal means, and numbers and
//! limits written for people.

use std::fmt::Display;
use std::ops::RangeInclusive;

/// What is wrong when a call is refused, by number: number 1 comes first.
pub const REFUSALS: [&str; 23] = [
    "the file is not 32 to 65,536 bytes long",
    "the version is not 1, 2, 3 or 4",
    "nodes are not 2 to 128, links not 1 to 512, destinations not 1 to 32, \
     or there are more destinations than nodes",
    "a section begins inside the header, runs into the next one or past the end of the file, \
     or the file is shorter than its version's header (32 bytes, 40 in versions 2 and 3, 56 in version 4)",
    "the length of a section does not fit the counts: 10 bytes a link (12 from version 3 on), \
     2 a destination, 2 for each destination and node, from version 2 on 1 a node and, in \
     version 4, again 2 for each destination and node, and 1 a link",
    "a link's tail or head is not a node, or both are the same node",
    "a link's free time is not 1 to 16,383, its rise not 0 to 16,383, its capacity is 0, \
     or its power is not 1 to 4",
    "a destination is not a node, or the destinations are not strictly ascending",
    "a destination has trips to itself",
    "the trips add up to more than 65,535",
    "a node with trips to a destination has no path to it that leads through no closed node \
     and, for lorry trips, over no barred link",
    "the flow table holds fewer numbers than destinations × links, or the note of a pass or a \
     taking back fewer than 1 + destinations × nodes (in version 4, twice each product)",
    "the budget is not 1 to 1,024",
    "the share is not 1 to 1,024",
    "the total flow on a link is more than share × total trips",
    "the flow table does not conserve: to some destination, what leaves a node is not \
     what enters it plus share × the trips that begin there",
    "the output slice is shorter than the packed study",
    "the page slice is shorter than 30 bytes a link",
    "a node's closed byte is neither 0 nor 1",
    "the flow table has flow on a link into a closed node that is not flow to that node, or \
     lorries on a barred link",
    "from a node with trips, the note does not lead by its own links, and permitted ones, to the \
     destination",
    "the note's j is not below the share, a flow is less than its part of what is to be taken \
     back, or an odd flow or share would have to be halved",
    "a link's barred byte is neither 0 nor 1",
];

/// What a refusal means, if the number is one of the table's.
pub fn refusal(number: u8) -> Option<&'static str> {
    REFUSALS.get(usize::from(number).checked_sub(1)?).copied()
}

/// What check answers: `accepted`, or `refused`, the number and its meaning.
pub fn answer(number: u8) -> String {
    match (number, refusal(number)) {
        (0, _) => "accepted".to_owned(),
        (_, Some(meaning)) => format!("refused {number}: {meaning}"),
        (_, None) => format!("refused {number}"),
    }
}

/// The table of refusals, a line each.
pub fn table() -> String {
    (1..)
        .zip(REFUSALS)
        .map(|(number, meaning)| format!("{number:2}  {meaning}\n"))
        .collect()
}

/// A whole number in groups of three digits: `65,535`.
pub fn grouped(number: impl Into<u128>) -> String {
    let digits = number.into().to_string();
    let mut text = String::new();
    for (place, digit) in digits.chars().enumerate() {
        if place > 0 && (digits.len() - place).is_multiple_of(3) {
            text.push(',');
        }
        text.push(digit);
    }
    text
}

/// A limit: `1 to 16,383`, or `1` where it leaves no choice.
pub fn range<N: Copy + Into<u128>>(limits: &RangeInclusive<N>) -> String {
    let (least, most) = (grouped(*limits.start()), grouped(*limits.end()));
    if least == most {
        return least;
    }
    format!("{least} to {most}")
}

/// A count with its noun: `1 node`, `2 nodes`.
pub fn count(number: impl Into<u128> + Copy, noun: impl Display) -> String {
    let number = number.into();
    let plural = if number == 1 { "" } else { "s" };
    format!("{} {noun}{plural}", grouped(number))
}

/// A number of trips and how many of them are lorry trips, if any are:
/// `5 trips (2 lorry trips)`.
pub fn trips(total: u32, lorries: u32) -> String {
    let total = count(total, "trip");
    match lorries {
        0 => total,
        lorries => format!("{total} ({})", count(lorries, "lorry trip")),
    }
}
