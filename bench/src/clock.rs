//! Time that a call takes on its processor, without the time in which other programs run there.

use std::time::Duration;

#[repr(C)]
struct Timespec {
    seconds: i64,
    nanoseconds: i64,
}

unsafe extern "C" {
    fn clock_gettime(clock: i32, time: *mut Timespec) -> i32;
}

const CLOCK_THREAD_CPUTIME_ID: i32 = 3;

/// What this thread has used so far.
fn used() -> Duration {
    let mut time = Timespec {
        seconds: 0,
        nanoseconds: 0,
    };
    let status = unsafe { clock_gettime(CLOCK_THREAD_CPUTIME_ID, &mut time) };
    assert_eq!(status, 0, "no clock of a thread's processor time");
    Duration::new(time.seconds as u64, time.nanoseconds as u32)
}

/// Microseconds for one of `calls` calls.
fn one_of(calls: u32, call: &mut dyn FnMut()) -> f64 {
    let start = used();
    for _ in 0..calls {
        call();
    }
    (used() - start).as_secs_f64() * 1e6 / f64::from(calls)
}

/// How many calls take at least this many microseconds, and how long one takes. It also warms up.
fn calls_for(least: f64, call: &mut dyn FnMut()) -> (u32, f64) {
    one_of(1, call);
    let one = one_of(1, call);
    ((least / one).ceil().clamp(1.0, 10_000.0) as u32, one)
}

/// The median of some numbers.
pub fn median(numbers: impl IntoIterator<Item = f64>) -> f64 {
    let mut numbers: Vec<f64> = numbers.into_iter().collect();
    numbers.sort_by(f64::total_cmp);
    let half = numbers.len() / 2;
    if numbers.len() % 2 == 1 {
        numbers[half]
    } else {
        (numbers[half - 1] + numbers[half]) / 2.0
    }
}

/// The least of some numbers.
pub fn least(numbers: impl IntoIterator<Item = f64>) -> f64 {
    numbers.into_iter().fold(f64::INFINITY, f64::min)
}

/// How many microseconds a sample takes, and all samples of a pass, where calls are short enough.
const SAMPLE: f64 = 3_000.0;
const PASS: f64 = 2_000_000.0;

/// How many samples a pass takes.
pub const LEAST_SAMPLES: u32 = 3;
pub const MOST_SAMPLES: u32 = 40;

/// Samples of each call, in microseconds for one call. They are taken by turns, so that what else the machine does falls on all.
pub fn samples<const N: usize>(mut calls: [&mut dyn FnMut(); N]) -> [Vec<f64>; N] {
    let mut counts = [0; N];
    let mut round = 0.0;
    for (count, call) in counts.iter_mut().zip(&mut calls) {
        let (many, one) = calls_for(SAMPLE, *call);
        *count = many;
        round += f64::from(many) * one;
    }
    let rounds = ((PASS / round) as u32).clamp(LEAST_SAMPLES, MOST_SAMPLES);
    let mut taken = [(); N].map(|()| Vec::new());
    for _ in 0..rounds {
        for i in 0..N {
            taken[i].push(one_of(counts[i], calls[i]));
        }
    }
    taken
}
