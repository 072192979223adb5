//! Medians of many batches, the two sides by turns, in the processor time of the thread: a busy machine lengthens it little.
use std::time::Duration;

/// C's `timespec`, on x86-64 Linux.
#[repr(C)]
struct Timespec {
    seconds: i64,
    nanoseconds: i64,
}

extern "C" {
    fn clock_gettime(clock: i32, time: *mut Timespec) -> i32;
}

/// The processor time of this thread since it began.
fn thread_time() -> Duration {
    const CLOCK_THREAD_CPUTIME_ID: i32 = 3;
    let mut time = Timespec { seconds: 0, nanoseconds: 0 };
    // SAFETY: C's own call, on a struct of its layout.
    unsafe { clock_gettime(CLOCK_THREAD_CPUTIME_ID, &mut time) };
    Duration::new(time.seconds as u64, time.nanoseconds as u32)
}

/// A batch is repeated until it takes so long that the clock is no part of it.
const BATCH: Duration = Duration::from_micros(200);
/// No batch has more calls.
const MOST: usize = 1 << 16;
const BATCHES: usize = 101;
/// Where a batch takes long, there are fewer.
const LIMIT: Duration = Duration::from_secs(3);
const FEWEST: usize = 9;

/// The time of a batch. What the calls made is dropped after the clock has stopped.
fn batch<R>(calls: usize, call: &mut impl FnMut() -> R) -> Duration {
    let mut made = Vec::with_capacity(calls);
    let start = thread_time();
    for _ in 0..calls {
        made.push(call());
    }
    thread_time() - start
}

/// How many calls make a batch, found by doubling, which also warms up.
fn batch_size<R>(call: &mut impl FnMut() -> R) -> usize {
    let mut calls = 1;
    while calls < MOST && batch(calls, call) < BATCH {
        calls *= 2;
    }
    calls
}

fn median(mut times: Vec<f64>) -> f64 {
    times.sort_by(f64::total_cmp);
    times[times.len() / 2]
}

/// The nanoseconds of one call of each, in the median.
pub(crate) fn pair<A, B>(mut first: impl FnMut() -> A, mut second: impl FnMut() -> B) -> (f64, f64) {
    let (first_calls, second_calls) = (batch_size(&mut first), batch_size(&mut second));
    let (mut first_times, mut second_times) = (Vec::new(), Vec::new());
    let start = thread_time();
    while first_times.len() < FEWEST || (first_times.len() < BATCHES && thread_time() - start < LIMIT) {
        first_times.push(batch(first_calls, &mut first).as_nanos() as f64 / first_calls as f64);
        second_times.push(batch(second_calls, &mut second).as_nanos() as f64 / second_calls as f64);
    }
    (median(first_times), median(second_times))
}
