//! A link's time, the area under its staircase, and whether it has run onto
//! the level part.

use crate::questions::LARGEST_TOTAL;

/// Steps are 64ths of capacity.
pub const STEPS_AT_CAPACITY: u32 = 64;
/// From this step on the time stays level.
pub const LAST_STEP: u32 = 256;
/// The largest power, and that of every link in versions 1 and 2.
pub const LARGEST_POWER: u16 = 4;
/// The rise is divided by 64⁴ = 2²⁴.
const RISE_SHIFT: u32 = 24;
/// The largest free time and the largest rise.
const LARGEST_TIME: u16 = 16_383;

/// Rows of the list of scaled powers: one for each power.
const ROWS: usize = LARGEST_POWER as usize;
/// Places in a row, one for each step and some to spare, so that a place is
/// found by a shift and needs no check.
const ROW_LENGTH: usize = 2 * LAST_STEP as usize;

/// r^q · 64^(4 − q) for step r and power q, at most 2³².
///
/// The rise times this over 64⁴ is the rise times r^q over 64^q. So one shift
/// serves all powers.
const fn scaled_power(step: u64, power: u32) -> u64 {
    let missing = LARGEST_POWER as u32 - power;
    step.pow(power) * (STEPS_AT_CAPACITY as u64).pow(missing)
}

/// The scaled powers, by power and then by step. Power 4 has row 0.
static SCALED_POWERS: [[u64; ROW_LENGTH]; ROWS] = {
    let mut powers = [[0; ROW_LENGTH]; ROWS];
    let mut power = 1;
    while power <= ROWS {
        let mut step = 0;
        while step <= LAST_STEP as usize {
            powers[power % ROWS][step] = scaled_power(step as u64, power as u32);
            step += 1;
        }
        power += 1;
    }
    powers
};

/// What a link's time depends on besides its flow.
///
/// Its functions take it by reference: in the loops over links only the numbers
/// they need are loaded then, each by itself.
#[derive(Clone, Copy, Debug, Default, PartialEq, Eq)]
pub struct Road {
    /// Free time a, hundredths of a minute.
    pub free: u16,
    /// Rise b, the time added at capacity.
    pub rise: u16,
    /// Capacity c, trips.
    pub capacity: u16,
    /// Power q, 1 to 4.
    pub power: u16,
}

impl Road {
    /// Question 7 for this link.
    #[inline]
    pub fn fits(&self) -> bool {
        (1..=LARGEST_TIME).contains(&self.free)
            && self.rise <= LARGEST_TIME
            && self.capacity >= 1
            && (1..=LARGEST_POWER).contains(&self.power)
    }

    /// Time t on step r, r at most 256.
    #[inline(always)]
    pub fn time_on(&self, step: u32) -> u32 {
        let place = usize::from(self.power) * ROW_LENGTH + step as usize;
        let power = SCALED_POWERS.as_flattened()[place % (ROWS * ROW_LENGTH)];
        let rise = (u64::from(self.rise) * power) >> RISE_SHIFT;
        u32::from(self.free) + rise as u32
    }

    /// Step r at a total flow of `flow` in `share`ths of a trip, share at least 1.
    ///
    /// Exact for all numbers of 64 bits.
    pub fn step(&self, flow: u64, share: u64) -> u32 {
        let reach = u128::from(flow) * u128::from(STEPS_AT_CAPACITY);
        let tread = u128::from(share) * u128::from(self.capacity);
        (reach / tread).min(u128::from(LAST_STEP)) as u32
    }

    /// Time t at a total flow of `flow` in `share`ths of a trip, share at least 1.
    pub fn time(&self, flow: u64, share: u64) -> u32 {
        self.time_on(self.step(flow, share))
    }

    /// Area under the staircase from 0 to 64·S, and whether step 256 was
    /// reached.
    ///
    /// `flow` is at most `share` × 65,535 and `share` at most 1,024, as
    /// questions 14 and 15 make sure: the staircase runs no further than 2³²,
    /// its height is below 2²³, and 512 such areas still fit 64 bits.
    pub fn area(&self, flow: u32, share: u32) -> (u64, bool) {
        debug_assert!(flow <= share * LARGEST_TOTAL);
        let reach = u64::from(flow) * u64::from(STEPS_AT_CAPACITY);
        let tread = u64::from(self.capacity) * u64::from(share);
        let whole = (reach / tread).min(u64::from(LAST_STEP));

        // Below the last step a scaled power is less than 2³². The mask leaves
        // it as it is and tells that a product of 32 bits each is enough.
        let rise = u64::from(self.rise);
        let powers = &SCALED_POWERS[usize::from(self.power) % ROWS];
        let risen: u64 = powers[..whole as usize]
            .iter()
            .map(|&power| (rise * (power & u64::from(u32::MAX))) >> RISE_SHIFT)
            .sum();
        let heights = u64::from(self.free) * whole + risen;
        let last = u64::from(self.time_on(whole as u32)) * (reach - whole * tread);
        (heights * tread + last, whole == u64::from(LAST_STEP))
    }
}

/// A link's road with 64/c beside it, so that a step is found by multiplying.
#[derive(Clone, Copy, Default)]
pub struct Gauge {
    road: Road,
    steps_per_trip: f64,
}

/// The part of a trip that one of a table's numbers counts, 1/W, a trace too
/// large.
#[derive(Clone, Copy)]
pub struct Part(f64);

impl Part {
    /// One `share`th of a trip.
    ///
    /// The trace, one part in 2⁴⁰, lifts every computed quotient above the
    /// errors of rounding; `Gauge::step` tells why it does no harm.
    #[inline]
    pub fn of_trip(share: u32) -> Self {
        const TRACE: f64 = 1.0 / (1_u64 << 40) as f64;
        Part((1.0 + TRACE) / f64::from(share))
    }

    /// Volume, floor(100·S / W), for flows of at most share × 65,535 and
    /// shares of at most 1,024.
    ///
    /// The whole part is the exact one for the reason that `Gauge::step`
    /// gives, here with x = 100·S / W, a fraction over W, and with three
    /// roundings: 100·S is below 2³³, so that what is too much is less than
    /// x · 2⁻³⁹ < 1 / W.
    #[inline(always)]
    pub fn volume(self, flow: u32) -> u32 {
        (f64::from(flow) * (100.0 * self.0)) as u32
    }
}

impl Gauge {
    /// The gauge of a road.
    #[inline]
    pub fn of(road: Road) -> Self {
        Gauge {
            road,
            steps_per_trip: f64::from(STEPS_AT_CAPACITY) / f64::from(road.capacity),
        }
    }

    /// Step r, for flows of at most share × 65,535 and shares of at most 1,024.
    ///
    /// Let x = 64·S / (c·W), and w its whole part. Computed below is
    /// y = x · (1 + 2⁻⁴⁰) · (1 + e), where e, from four roundings, is less
    /// than 2⁻⁵⁰ either way. So y is at least x, and more unless x is 0. And
    /// y − x is less than x · 2⁻³⁹ = 64·S · 2⁻³⁹ / (c·W) < 1 / (c·W), because
    /// 64·S is below 2³²; but x is a fraction over c·W, at most
    /// w + 1 − 1 / (c·W). So y is less than w + 1, and its whole part is w
    /// too.
    ///
    /// The smaller of y and 256, less a half, is added to a number so large
    /// that the sum is rounded to a whole one, and its lowest bits are the
    /// step: what is added lies above w − ½ and below w + ½. Only for 0 and
    /// 256 it may lie halfway; both are even, and halfway the even one wins.
    #[inline(always)]
    fn step(&self, flow: u32, part: Part) -> u32 {
        /// Numbers of its size are 1 apart, and its lowest 51 bits are 0.
        const LARGE: f64 = 1.5 * (1_u64 << 52) as f64;
        let steps = f64::from(flow) * (self.steps_per_trip * part.0);
        let sum = (steps.min(f64::from(LAST_STEP)) - 0.5) + LARGE;
        sum.to_bits() as u32 % ROW_LENGTH as u32
    }

    /// Time t, for flows of at most share × 65,535 and shares of at most 1,024.
    #[inline(always)]
    pub fn time(&self, flow: u32, part: Part) -> u32 {
        self.road.time_on(self.step(flow, part))
    }
}

#[cfg(test)]
mod tests {
    use super::*;

    /// The gauge against whole-number division, on both sides of every edge.
    #[test]
    fn the_gauge_is_exact() {
        let mut tried = 0_u64;
        for capacity in (1..=300).chain((301..=65_535).step_by(617)).chain([65_535]) {
            let roads = [1, 2, 3, 4].map(|power| Road {
                free: 1,
                rise: 16_383,
                capacity,
                power,
            });
            let gauges = roads.map(Gauge::of);
            for share in [
                1, 2, 3, 5, 7, 9, 10, 49, 63, 64, 96, 511, 512, 641, 1_000, 1_021, 1_023, 1_024,
            ] {
                let part = Part::of_trip(share);
                let most = share * LARGEST_TOTAL;
                let mut try_flow = |flow: u64| {
                    if flow <= u64::from(most) {
                        let exact = roads[0].step(flow, u64::from(share));
                        assert_eq!(gauges[0].step(flow as u32, part), exact);
                        let place = tried as usize % 4;
                        let time = roads[place].time(flow, u64::from(share));
                        assert_eq!(gauges[place].time(flow as u32, part), time);
                        tried += 1;
                    }
                };
                for step in 0..=258 {
                    // The least flow on this step.
                    let edge = (step * u64::from(capacity) * u64::from(share)).div_ceil(64);
                    for flow in edge.saturating_sub(1)..=edge + 1 {
                        try_flow(flow);
                    }
                }
                try_flow(u64::from(most));
            }
        }
        assert!(tried > 1_000_000);
    }

    /// The volume against whole-number division, on both sides of edges.
    #[test]
    fn the_volume_is_exact() {
        for share in 1..=1_024 {
            let part = Part::of_trip(share);
            let most = share * LARGEST_TOTAL;
            for volume in (0..6_553_500).step_by(9_973).chain([1, 99, 6_553_500]) {
                // The least flow of this volume.
                let edge = (volume * u64::from(share)).div_ceil(100) as u32;
                for flow in edge.saturating_sub(1)..=(edge + 1).min(most) {
                    let exact = 100 * u64::from(flow) / u64::from(share);
                    assert_eq!(u64::from(part.volume(flow)), exact);
                }
            }
        }
    }

    /// Every step's time for every power against whole-number division.
    #[test]
    fn the_time_of_every_step_and_power() {
        for power in 1..=4 {
            for rise in (0..=16_383).step_by(61).chain([1, 63, 64, 65, 16_383]) {
                for free in [1, 16_383] {
                    let road = Road {
                        free,
                        rise,
                        capacity: 1,
                        power,
                    };
                    for step in 0..=LAST_STEP {
                        let risen = u128::from(rise) * u128::from(step).pow(power.into());
                        let exact = u128::from(free) + risen / 64_u128.pow(power.into());
                        assert_eq!(u128::from(road.time_on(step)), exact);
                    }
                }
            }
        }
    }

    #[test]
    fn the_area_is_the_treads_one_by_one() {
        let roads = [
            (10, 10, 2),
            (15, 0, 1),
            (16_383, 16_383, 1),
            (3, 9_999, 700),
            (1, 16_383, 65_535),
        ];
        for (place, power) in (0..20).zip([1, 2, 3, 4].into_iter().cycle()) {
            let (free, rise, capacity) = roads[place / 4];
            let road = Road {
                free,
                rise,
                capacity,
                power,
            };
            for share in [1, 9, 64, 1_024] {
                for flow in [0, 1, 16, 511, 2_800 * share, 65_535 * share] {
                    let tread = u64::from(capacity) * u64::from(share);
                    let mut left = 64 * u64::from(flow);
                    let mut area = 0;
                    for step in 0..256 {
                        let here = left.min(tread);
                        area += here * u64::from(road.time_on(step));
                        left -= here;
                    }
                    area += left * u64::from(road.time_on(256));
                    let over = 64 * u64::from(flow) >= 256 * tread;
                    assert_eq!(road.area(flow, share), (area, over));
                }
            }
        }
    }

    /// Every number of whole treads, with and without a part of one more.
    #[test]
    fn the_area_of_every_step_and_power() {
        for power in 1..=4 {
            let road = Road {
                free: 7,
                rise: 12_345,
                capacity: 64,
                power,
            };
            let mut whole = 0;
            for step in 0..256 {
                let height = u64::from(road.time_on(step));
                let part = u64::from(step % 10);
                let (area, over) = road.area(10 * step + part as u32, 10);
                assert_eq!(area, 64 * (10 * whole + part * height));
                assert!(!over);
                whole += height;
            }
            let level = u64::from(road.time_on(LAST_STEP));
            for beyond in [0, 1, 4_000] {
                let expected = 64 * (10 * whole + u64::from(beyond) * level);
                assert_eq!(road.area(2_560 + beyond, 10), (expected, true));
            }
        }
    }

    #[test]
    fn powers_that_fit() {
        for power in [0, 1, 2, 3, 4, 5, 8, 256, 257, 65_535] {
            let road = Road {
                free: 1,
                rise: 0,
                capacity: 1,
                power,
            };
            assert_eq!(road.fits(), (1..=4).contains(&power));
        }
    }
}
