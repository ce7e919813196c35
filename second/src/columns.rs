//! The lines of a page: one for each link, its numbers in columns.
//!
//! The bytes come out of short lists of written numbers, which are constants,
//! so that the work is the same however many digits a number has.

use crate::format::MOST_LINKS;

/// Bytes of one link's line.
pub const LINE_BYTES: usize = 30;

/// The digit that counts so many ones, tens, hundreds.
const fn digit(number: usize, unit: usize) -> u8 {
    b'0' + (number / unit % 10) as u8
}

/// The numbers of links, and of nodes with them, in three columns, and the
/// space that follows.
const NUMBERS: [[u8; 4]; MOST_LINKS] = {
    let mut numbers = [[b' '; 4]; MOST_LINKS];
    let mut number = 0;
    while number < MOST_LINKS {
        if number >= 100 {
            numbers[number][0] = digit(number, 100);
        }
        if number >= 10 {
            numbers[number][1] = digit(number, 10);
        }
        numbers[number][2] = digit(number, 1);
        number += 1;
    }
    numbers
};

/// Two columns of a number of hundredths, of those further in front: first as
/// they are where nothing but zeros comes before them, then as they are after
/// another digit.
const PAIRS: [[[u8; 2]; 100]; 2] = {
    let mut pairs = [[[b' '; 2]; 100]; 2];
    let mut number = 0;
    while number < 100 {
        if number >= 10 {
            pairs[0][number][0] = digit(number, 10);
        }
        if number >= 1 {
            pairs[0][number][1] = digit(number, 1);
        }
        pairs[1][number] = [digit(number, 10), digit(number, 1)];
        number += 1;
    }
    pairs
};

/// The last four columns of a number of hundredths: the digit before the
/// point, which is always there, the point and the two digits after it.
const ENDS: [[u8; 4]; 1_000] = {
    let mut ends = [[b'.'; 4]; 1_000];
    let mut number = 0;
    while number < 1_000 {
        ends[number][0] = digit(number, 100);
        ends[number][2] = digit(number, 10);
        ends[number][3] = digit(number, 1);
        number += 1;
    }
    ends
};

/// A number of hundredths in eight columns, with a point before its last two
/// digits and at least one digit before it; spaces are in front.
///
/// The number is below 10⁷, as every volume and time is: volumes are at most
/// 65,535.00 by question 15, times 16,383 · 257 hundredths by question 7.
#[inline(always)]
fn hundredths(number: u32) -> [u8; 8] {
    let (tens, end) = (number as usize / 1_000, number as usize % 1_000);
    let (front, middle) = (tens / 100, tens % 100);
    let [a, b] = PAIRS[0][front];
    let [c, d] = PAIRS[usize::from(front != 0)][middle];
    let [e, f, g, h] = ENDS[end];
    [a, b, c, d, e, f, g, h]
}

/// What stands in a link's line. The link and its ends are below 512, volume
/// and time below 10⁷.
#[derive(Clone, Copy, Debug, PartialEq, Eq)]
pub struct Line {
    /// The link's number.
    pub link: usize,
    /// Its tail.
    pub tail: u8,
    /// Its head.
    pub head: u8,
    /// Its volume, hundredths of a trip.
    pub volume: u32,
    /// Its time, hundredths of a minute.
    pub time: u32,
}

impl Line {
    /// Writes the line.
    #[inline]
    pub fn write(self, bytes: &mut [u8; LINE_BYTES]) {
        bytes[0..4].copy_from_slice(&NUMBERS[self.link]);
        bytes[4..8].copy_from_slice(&NUMBERS[usize::from(self.tail)]);
        bytes[8..12].copy_from_slice(&NUMBERS[usize::from(self.head)]);
        bytes[12..20].copy_from_slice(&hundredths(self.volume));
        bytes[20] = b' ';
        bytes[21..29].copy_from_slice(&hundredths(self.time));
        bytes[29] = b'\n';
    }
}

#[cfg(test)]
mod tests {
    use super::*;

    #[test]
    fn every_number_of_hundredths() {
        for number in 0..10_000_000 {
            let text = hundredths(number);
            let expected =
                [1_000_000, 100_000, 10_000, 1_000, 100, 0, 10, 1].map(|place| match place {
                    0 => b'.',
                    1_000.. if number < place => b' ',
                    _ => b'0' + (number / place % 10) as u8,
                });
            assert_eq!(text, expected, "{number}");
        }
    }

    #[test]
    fn a_few_numbers_of_hundredths() {
        for (number, text) in [
            (0, "    0.00"),
            (5, "    0.05"),
            (99, "    0.99"),
            (100, "    1.00"),
            (1_234, "   12.34"),
            (4_210_431, "42104.31"),
            (6_553_500, "65535.00"),
        ] {
            assert_eq!(hundredths(number), text.as_bytes());
        }
    }

    #[test]
    fn every_number_of_links_and_nodes() {
        for (number, text) in NUMBERS.iter().enumerate() {
            assert_eq!(text[..], *format!("{number:>3} ").as_bytes());
        }
    }
}
