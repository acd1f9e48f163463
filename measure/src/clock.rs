//! Times of two calls that alternate.

use std::time::{Duration, Instant};

/// Nanoseconds for one call.
#[derive(Clone, Copy, Debug)]
pub struct Times {
    pub best: f64,
    pub median: f64,
}

impl Times {
    pub fn of(mut rounds: Vec<f64>) -> Times {
        rounds.sort_by(f64::total_cmp);
        Times { best: rounds[0], median: rounds[rounds.len() / 2] }
    }
}

/// A round of one call lasts at least this long.
const ROUND: Duration = Duration::from_millis(2);
/// The rounds of one call together last about this long at most, but there are at least `FEWEST` of them.
const TOTAL: Duration = Duration::from_secs(3);
const FEWEST: usize = 7;
const MOST: usize = 101;

/// Round by round, first the one and then the other.
pub fn alternate(mut one: impl FnMut(), mut other: impl FnMut()) -> (Times, Times) {
    let (many_one, rounds_one) = plan(&mut one);
    let (many_other, rounds_other) = plan(&mut other);
    let (mut times_one, mut times_other) = (Vec::new(), Vec::new());
    for _ in 0..rounds_one.min(rounds_other) {
        times_one.push(round(&mut one, many_one));
        times_other.push(round(&mut other, many_other));
    }
    (Times::of(times_one), Times::of(times_other))
}

/// How many calls a round has, and how many rounds there are.
fn plan(call: &mut impl FnMut()) -> (u32, usize) {
    let mut many = 1;
    loop {
        let begin = Instant::now();
        for _ in 0..many {
            call();
        }
        let passed = begin.elapsed();
        if passed >= ROUND {
            let rounds = (TOTAL.as_nanos() / passed.as_nanos()) as usize;
            return (many, rounds.clamp(FEWEST, MOST));
        }
        many *= 2;
    }
}

fn round(call: &mut impl FnMut(), many: u32) -> f64 {
    let begin = Instant::now();
    for _ in 0..many {
        call();
    }
    begin.elapsed().as_nanos() as f64 / many as f64
}

/// A time with three figures and its unit.
pub fn show(nanoseconds: f64) -> String {
    let (value, unit) = match nanoseconds {
        n if n < 1e3 => (n, "ns"),
        n if n < 1e6 => (n / 1e3, "µs"),
        n if n < 1e9 => (n / 1e6, "ms"),
        n => (n / 1e9, "s"),
    };
    format!("{} {unit}", figures(value))
}

/// Three figures, or two for what is below 1.
pub fn figures(value: f64) -> String {
    let places = match value {
        v if v >= 99.95 => 0,
        v if v >= 9.995 => 1,
        v if v >= 0.1 => 2,
        v if v >= 0.01 => 3,
        _ => 4,
    };
    format!("{value:.places$}")
}

/// With commas between the thousands.
pub fn thousands(number: usize) -> String {
    let digits = number.to_string();
    let mut out = String::new();
    for (at, digit) in digits.chars().enumerate() {
        if at > 0 && (digits.len() - at).is_multiple_of(3) {
            out.push(',');
        }
        out.push(digit);
    }
    out
}
