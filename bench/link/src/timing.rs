//! Times of two things in turn, as the processor's time of this thread: what else runs on the machine is not in it.

use std::time::{Duration, Instant};

#[repr(C)]
#[derive(Default)]
struct Timespec {
    seconds: i64,
    nanoseconds: i64,
}

unsafe extern "C" {
    fn clock_gettime(clock: i32, time: *mut Timespec) -> i32;
}

/// The time that this thread ran, in seconds.
fn thread_time() -> f64 {
    const THREAD: i32 = 3;
    let mut time = Timespec::default();
    // SAFETY: the place is lent for the call, and is as on 64-bit Linux.
    let answer = unsafe { clock_gettime(THREAD, &mut time) };
    assert_eq!(answer, 0, "there is no clock of this thread");
    time.seconds as f64 + time.nanoseconds as f64 * 1e-9
}

/// How often each is timed, unless that takes too long.
const ROUNDS: usize = 31;

/// How often at least.
const LEAST: usize = 7;

/// After so long no further round begins.
const LONG: Duration = Duration::from_secs(4);

/// The least time of a batch.
const BATCH: Duration = Duration::from_millis(4);

/// The median seconds of each of two calls, timed in turn.
pub fn medians(mut one: impl FnMut(), mut other: impl FnMut()) -> [f64; 2] {
    let counts = [batch(&mut one), batch(&mut other)];
    let mut times = [const { Vec::new() }; 2];
    let start = Instant::now();
    for round in 0..ROUNDS {
        if round >= LEAST && start.elapsed() > LONG {
            break;
        }
        times[0].push(seconds(&mut one, counts[0]));
        times[1].push(seconds(&mut other, counts[1]));
    }
    times.map(median)
}

/// How many calls a batch takes.
fn batch(call: &mut impl FnMut()) -> u32 {
    let mut count = 1;
    while seconds(call, count) * f64::from(count) < BATCH.as_secs_f64() {
        count *= 2;
    }
    count
}

/// The seconds of one call among so many.
fn seconds(call: &mut impl FnMut(), count: u32) -> f64 {
    let start = thread_time();
    for _ in 0..count {
        call();
    }
    (thread_time() - start) / f64::from(count)
}

fn median(mut times: Vec<f64>) -> f64 {
    times.sort_by(f64::total_cmp);
    times[times.len() / 2]
}
