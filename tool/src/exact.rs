//! Exact figures: decimal text as fractions of whole numbers.
//!
//! No figure passes through floating point. What cannot be kept exactly in
//! 128 bits is an error ([`FigureError::TooLong`]), never an approximation.

use std::cmp::Ordering;
use std::fmt;

use crate::words::grouped;

/// Digits that a numerator or denominator may always have.
pub const DIGITS: u32 = 37;

/// The largest numerator and denominator: there is room to take either
/// tenfold, or to add three of them.
const LARGEST: u128 = 10u128.pow(DIGITS);

/// A fraction in lowest terms, 0 or more.
#[derive(Clone, Copy, Debug, PartialEq, Eq)]
pub struct Fraction {
    numerator: u128,
    denominator: u128,
}

impl Fraction {
    /// Nothing.
    pub const ZERO: Fraction = Fraction::whole(0);
    /// One.
    pub const ONE: Fraction = Fraction::whole(1);

    /// A whole number.
    pub const fn whole(number: u64) -> Self {
        Fraction {
            numerator: number as u128,
            denominator: 1,
        }
    }

    /// `numerator / denominator`; none if the denominator is 0 or a part has
    /// too many digits in lowest terms.
    pub fn new(numerator: u128, denominator: u128) -> Option<Self> {
        if denominator == 0 {
            return None;
        }
        let common = common_divisor(numerator, denominator);
        let (numerator, denominator) = (numerator / common, denominator / common);
        (numerator <= LARGEST && denominator <= LARGEST).then_some(Fraction {
            numerator,
            denominator,
        })
    }

    /// Is this 0?
    pub fn is_zero(self) -> bool {
        self.numerator == 0
    }

    /// The sum, if it has not too many digits.
    pub fn plus(self, other: Self) -> Option<Self> {
        let (ours, theirs, denominator) = self.side_by_side(other)?;
        Fraction::new(ours.checked_add(theirs)?, denominator)
    }

    /// The difference without its sign, if it has not too many digits.
    pub fn apart(self, other: Self) -> Option<Self> {
        let (ours, theirs, denominator) = self.side_by_side(other)?;
        Fraction::new(ours.abs_diff(theirs), denominator)
    }

    /// Both numerators over one common denominator.
    fn side_by_side(self, other: Self) -> Option<(u128, u128, u128)> {
        let common = common_divisor(self.denominator, other.denominator);
        let (ours, theirs) = (other.denominator / common, self.denominator / common);
        Some((
            self.numerator.checked_mul(ours)?,
            other.numerator.checked_mul(theirs)?,
            self.denominator.checked_mul(ours)?,
        ))
    }

    /// The product, if it has not too many digits.
    pub fn times(self, other: Self) -> Option<Self> {
        let here = common_divisor(self.numerator, other.denominator);
        let there = common_divisor(other.numerator, self.denominator);
        Fraction::new(
            (self.numerator / here).checked_mul(other.numerator / there)?,
            (self.denominator / there).checked_mul(other.denominator / here)?,
        )
    }

    /// The quotient; none if `other` is 0 or it has too many digits.
    pub fn divided_by(self, other: Self) -> Option<Self> {
        self.times(Fraction::new(other.denominator, other.numerator)?)
    }

    /// The nearest whole number; halves go up.
    pub fn nearest(self) -> u128 {
        (2 * self.numerator + self.denominator) / (2 * self.denominator)
    }

    /// How far the nearest whole number is away.
    pub fn rounding(self) -> Self {
        // The nearest whole number exceeds this one by at most a half.
        let rounded = self.nearest() * self.denominator;
        Fraction {
            numerator: self.numerator.abs_diff(rounded),
            denominator: self.denominator,
        }
    }
}

/// The greatest common divisor; of 0 and 0 it is 1, so that it can divide.
fn common_divisor(mut one: u128, mut other: u128) -> u128 {
    while other != 0 {
        (one, other) = (other, one % other);
    }
    one.max(1)
}

impl Ord for Fraction {
    /// Compares whole parts, then what is left over turned upside down: no
    /// product, so nothing can overflow.
    fn cmp(&self, other: &Self) -> Ordering {
        let (mut a, mut b) = (*self, *other);
        loop {
            let wholes = (a.numerator / a.denominator).cmp(&(b.numerator / b.denominator));
            let left = (a.numerator % a.denominator, b.numerator % b.denominator);
            match (wholes, left) {
                (Ordering::Equal, (0, right)) => return 0.cmp(&right),
                (Ordering::Equal, (_, 0)) => return Ordering::Greater,
                (Ordering::Equal, (ours, theirs)) => {
                    // a < b exactly when 1/b < 1/a.
                    (a, b) = (
                        Fraction {
                            numerator: b.denominator,
                            denominator: theirs,
                        },
                        Fraction {
                            numerator: a.denominator,
                            denominator: ours,
                        },
                    );
                }
                (unequal, _) => return unequal,
            }
        }
    }
}

impl PartialOrd for Fraction {
    fn partial_cmp(&self, other: &Self) -> Option<Ordering> {
        Some(self.cmp(other))
    }
}

impl fmt::Display for Fraction {
    /// In decimals, whole part in groups of three; nine places at most, and
    /// then `…` for the rest.
    fn fmt(&self, out: &mut fmt::Formatter<'_>) -> fmt::Result {
        write!(out, "{}", grouped(self.numerator / self.denominator))?;
        let mut rest = self.numerator % self.denominator;
        if rest != 0 {
            write!(out, ".")?;
        }
        for _ in 0..9 {
            if rest == 0 {
                return Ok(());
            }
            rest *= 10;
            write!(out, "{}", rest / self.denominator)?;
            rest %= self.denominator;
        }
        if rest != 0 {
            write!(out, "…")?;
        }
        Ok(())
    }
}

/// Why a text is not a figure of 0 or more.
#[derive(Clone, Copy, Debug, PartialEq, Eq)]
pub enum FigureError {
    /// It is not decimal notation.
    NotDecimal,
    /// It is below 0.
    Negative,
    /// It cannot be kept exactly.
    TooLong,
}

/// A figure as it was written.
#[derive(Clone, Copy, Debug, PartialEq, Eq)]
pub struct Figure {
    /// What it is worth.
    pub value: Fraction,
    /// Places after the point, trailing zeros included.
    pub places: u32,
}

impl Figure {
    /// Reads decimal notation: digits with an optional point, sign and
    /// exponent, as in `25900.20064`, `.15`, `4.` and `1.5e-3`.
    pub fn parse(text: &str) -> Result<Self, FigureError> {
        let parts = Parts::split(text).ok_or(FigureError::NotDecimal)?;
        let exponent: i64 = match parts.exponent {
            "" => 0,
            // Only an exponent of twenty digits and more is no i64.
            digits => digits.parse().map_err(|_| FigureError::TooLong)?,
        };

        // Zeros wait until another digit follows: at the end they only move
        // the point.
        let mut digits: u128 = 0;
        let mut waiting: u32 = 0;
        for byte in parts.whole.bytes().chain(parts.fraction.bytes()) {
            waiting += 1;
            if byte != b'0' {
                digits = 10u128
                    .checked_pow(waiting)
                    .and_then(|power| digits.checked_mul(power))
                    .and_then(|shifted| shifted.checked_add(u128::from(byte - b'0')))
                    .ok_or(FigureError::TooLong)?;
                waiting = 0;
            } else if digits == 0 {
                waiting = 0;
            }
        }

        let after_point = parts.fraction.len() as i64;
        let places = after_point.saturating_sub(exponent).max(0);
        let places = u32::try_from(places).map_err(|_| FigureError::TooLong)?;
        if digits == 0 {
            let value = Fraction::ZERO;
            return Ok(Figure { value, places });
        }
        if parts.negative {
            return Err(FigureError::Negative);
        }

        // digits × 10^power
        let power = exponent
            .saturating_sub(after_point)
            .saturating_add(i64::from(waiting));
        let shift = u32::try_from(power.unsigned_abs())
            .ok()
            .and_then(|size| 10u128.checked_pow(size))
            .ok_or(FigureError::TooLong)?;
        let value = if power < 0 {
            Fraction::new(digits, shift)
        } else {
            digits
                .checked_mul(shift)
                .and_then(|whole| Fraction::new(whole, 1))
        };
        let value = value.ok_or(FigureError::TooLong)?;
        Ok(Figure { value, places })
    }
}

/// Is this decimal notation, of either sign and any length?
pub fn is_decimal(text: &str) -> bool {
    Parts::split(text).is_some()
}

/// Decimal notation taken apart; the digits are ASCII digits.
struct Parts<'a> {
    negative: bool,
    whole: &'a str,
    fraction: &'a str,
    /// With its sign; empty if there is none.
    exponent: &'a str,
}

impl<'a> Parts<'a> {
    fn split(text: &'a str) -> Option<Self> {
        let all_digits = |digits: &str| digits.bytes().all(|byte| byte.is_ascii_digit());

        let unsigned = text.strip_prefix(['+', '-']).unwrap_or(text);
        let (mantissa, exponent) = match unsigned.split_once(['e', 'E']) {
            Some((mantissa, exponent)) => {
                let digits = exponent.strip_prefix(['+', '-']).unwrap_or(exponent);
                if digits.is_empty() || !all_digits(digits) {
                    return None;
                }
                (mantissa, exponent)
            }
            None => (unsigned, ""),
        };
        let (whole, fraction) = mantissa.split_once('.').unwrap_or((mantissa, ""));
        let some_digits = !(whole.is_empty() && fraction.is_empty());
        (some_digits && all_digits(whole) && all_digits(fraction)).then_some(Parts {
            negative: text.starts_with('-'),
            whole,
            fraction,
            exponent,
        })
    }
}
