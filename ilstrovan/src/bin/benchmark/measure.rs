//! Times of several ways to do the same, measured turn about, in processor time of
//! this thread, so that what else the machine does counts little.

use std::ffi::{c_int, c_long};
use std::fmt;
use std::hint::black_box;
use std::time::Duration;

/// Measurements of either.
const REPETITIONS: usize = 41;

/// Calls in a measurement take about so long together.
const MEASUREMENT: Duration = Duration::from_millis(2);

/// Most calls in a measurement.
const MOST_CALLS: usize = 2_000;

/// Times of two ways or of three, and the ratios of the first to the others.
pub struct Comparison {
    first: Spread,
    /// Times and ratios of the others.
    others: Vec<(Spread, Spread)>,
}

impl Comparison {
    /// How many ways there are.
    pub fn ways(&self) -> usize {
        1 + self.others.len()
    }

    /// The same of two ways for each of so many parts that they consist of.
    pub fn of_parts(mut self, parts: [u32; 2]) -> Self {
        let [first, second] = parts.map(f64::from);
        self.first.divide(first);
        for (time, ratio) in &mut self.others {
            time.divide(second);
            ratio.divide(first / second);
        }
        self
    }
}

impl fmt::Display for Comparison {
    fn fmt(&self, out: &mut fmt::Formatter<'_>) -> fmt::Result {
        write!(out, "{}", self.first)?;
        let mut others = self.others.iter();
        others.try_for_each(|(time, ratio)| write!(out, " | {time} | {ratio}"))
    }
}

/// Median and quartiles.
struct Spread {
    lower: f64,
    median: f64,
    upper: f64,
}

impl Spread {
    fn of(mut numbers: Vec<f64>) -> Self {
        numbers.sort_by(f64::total_cmp);
        let at = |quarter: usize| numbers[quarter * (numbers.len() - 1) / 4];
        Spread {
            lower: at(1),
            median: at(2),
            upper: at(3),
        }
    }

    fn divide(&mut self, by: f64) {
        self.lower /= by;
        self.median /= by;
        self.upper /= by;
    }
}

impl fmt::Display for Spread {
    fn fmt(&self, out: &mut fmt::Formatter<'_>) -> fmt::Result {
        write!(
            out,
            "{:.2} ({:.2}–{:.2})",
            self.median, self.lower, self.upper
        )
    }
}

/// One way to do it.
pub type Way<'a> = &'a mut dyn FnMut(&mut [u32]);

/// Compares the first way with the others. Each call has a table of its own that
/// holds what `table` does.
pub fn compare(table: &[u32], ways: &mut [Way<'_>]) -> Comparison {
    let once: f64 = ways.iter_mut().map(|way| time(table, 1, way)).sum();
    let calls = (ways.len() as f64 * MEASUREMENT.as_secs_f64() * 1e6 / once) as usize;
    let calls = calls.clamp(1, MOST_CALLS);
    let mut times = vec![vec![]; ways.len()];
    for turn in 0..REPETITIONS {
        // Each of them is now the first, now the last.
        for place in 0..ways.len() {
            let way = (turn + place) % ways.len();
            times[way].push(deeper(turn, &mut || time(table, calls, &mut ways[way])));
        }
    }
    let first = times.remove(0);
    let ratio = |other: &[f64]| {
        let pairs = first.iter().zip(other);
        Spread::of(pairs.map(|(first, other)| first / other).collect())
    };
    let others = times.into_iter();
    Comparison {
        others: others
            .map(|other| (Spread::of(other.clone()), ratio(&other)))
            .collect(),
        first: Spread::of(first.clone()),
    }
}

/// What a measurement gives that many kilobytes further down the stack. Where an
/// array happens to lie in memory can make a call slower by a quarter, so that
/// every turn has its arrays elsewhere.
#[inline(never)]
fn deeper(kilobytes: usize, measurement: &mut dyn FnMut() -> f64) -> f64 {
    if kilobytes == 0 {
        return measurement();
    }
    let room = black_box([0_u8; 1_024]);
    let result = deeper(kilobytes - 1, measurement);
    black_box(&room);
    result
}

/// Microseconds a call.
fn time(table: &[u32], calls: usize, call: &mut Way<'_>) -> f64 {
    let mut tables = vec![table.to_vec(); calls];
    let begin = processor_time();
    for table in &mut tables {
        call(black_box(table));
    }
    (processor_time() - begin).as_secs_f64() * 1e6 / calls as f64
}

/// Processor time that this thread has used.
fn processor_time() -> Duration {
    /// C's CLOCK_THREAD_CPUTIME_ID on Linux.
    const THREAD: c_int = 3;

    /// C's timespec on 64-bit Linux.
    #[repr(C)]
    struct Time {
        seconds: c_long,
        nanoseconds: c_long,
    }

    unsafe extern "C" {
        fn clock_gettime(clock: c_int, time: *mut Time) -> c_int;
    }

    let mut time = Time {
        seconds: 0,
        nanoseconds: 0,
    };
    // SAFETY: `time` is a timespec of this function's own.
    let code = unsafe { clock_gettime(THREAD, &mut time) };
    assert_eq!(code, 0, "Linux tells a thread its processor time");
    Duration::new(time.seconds as u64, time.nanoseconds as u32)
}
