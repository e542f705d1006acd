//! The time of a call, measured so that a busy machine does least harm: the processor time of this thread, many calls
//! a round, the sides in turn, the best round of each over several laps.

use std::hint::black_box;
use std::time::Duration;

/// Laps over all kinds, so that a time in which the machine is busy does not fall on a few of them alone.
const LAPS: usize = 5;
const ROUNDS: usize = 3;
const ROUND: Duration = Duration::from_millis(20);

/// C's `struct timespec` and the number of the thread's own clock, as Linux has them on x86-64.
#[repr(C)]
struct Timespec {
    seconds: i64,
    nanoseconds: i64,
}
const CLOCK_THREAD_CPUTIME_ID: i32 = 3;

unsafe extern "C" {
    fn clock_gettime(clock: i32, time: *mut Timespec) -> i32;
}

/// Nanoseconds on each side, where it was timed.
pub type Times<const N: usize> = [Option<f64>; N];

/// A side: one pass of the calls that are timed.
pub type Side<'a> = Box<dyn FnMut() + 'a>;

/// A pass: the call for each input, once, with its result dropped.
pub fn pass<'a, T, R>(inputs: &'a [T], mut call: impl FnMut(&T) -> R + 'a) -> Option<Side<'a>> {
    Some(Box::new(move || {
        for input in inputs {
            black_box(&call(black_box(input)));
        }
    }))
}

/// From the time of a pass to the time of one call of it.
pub fn a_call<const N: usize>(pass: Times<N>, calls: usize) -> Times<N> {
    pass.map(|side| side.map(|ns| ns / calls as f64))
}

/// The best time of each kind on each side over all laps. A line for each lap, with a point for each kind, goes to standard
/// error.
pub fn best_of_laps<K, const N: usize>(kinds: &[K], time: impl Fn(&K) -> Times<N>) -> Vec<Times<N>> {
    let mut best: Vec<Times<N>> = Vec::new();
    for lap in 1..=LAPS {
        eprint!("lap {lap} of {LAPS} ");
        for (number, kind) in kinds.iter().enumerate() {
            eprint!(".");
            let times = time(kind);
            match best.get_mut(number) {
                Some(so_far) => keep_best(so_far, times),
                None => best.push(times),
            }
        }
        eprintln!();
    }
    best
}

fn keep_best<const N: usize>(best: &mut Times<N>, again: Times<N>) {
    for (best, again) in best.iter_mut().zip(again) {
        *best = best.zip(again).map(|(best, again)| best.min(again));
    }
}

/// How the times were taken, in a line.
pub fn method() -> String {
    format!(
        "Processor time, best of {} rounds of at least {} ms, in turn, in {LAPS} laps over all kinds.",
        LAPS * ROUNDS,
        ROUND.as_millis()
    )
}

/// A time, or a ratio of two, with one digit after the point; `–` for none.
pub fn cell(number: Option<f64>) -> String {
    with_digits(number, 1)
}

/// The same with so many digits.
pub fn with_digits(number: Option<f64>, digits: usize) -> String {
    number.map_or("–".to_string(), |number| format!("{number:.digits$}"))
}

/// The ratio of two times, where there are both.
pub fn ratio(a: Option<f64>, b: Option<f64>) -> Option<f64> {
    a.zip(b).map(|(a, b)| a / b)
}

/// Nanoseconds that one pass of each side takes, where there is one.
pub fn in_turn<const N: usize>(sides: [Option<Side>; N]) -> Times<N> {
    let mut sides = sides.map(|side| side.map(|mut side| (passes(&mut side), side)));
    let mut best = [None; N];
    for _ in 0..ROUNDS {
        for (best, side) in best.iter_mut().zip(&mut sides) {
            let Some((passes, side)) = side else { continue };
            let pass = round(side, *passes).as_nanos() as f64 / f64::from(*passes);
            *best = Some(best.map_or(pass, |so_far: f64| so_far.min(pass)));
        }
    }
    best
}

/// How many passes fill a round. Twice what just sufficed, so that a quick round is long enough too.
fn passes(side: &mut Side) -> u32 {
    let mut passes = 1;
    while round(side, passes) < ROUND {
        passes *= 2;
    }
    2 * passes
}

fn round(side: &mut Side, passes: u32) -> Duration {
    let start = thread_time();
    for _ in 0..passes {
        side();
    }
    thread_time() - start
}

/// Processor time that this thread has used: what other programs use of the processor is not in it.
fn thread_time() -> Duration {
    let mut time = Timespec { seconds: 0, nanoseconds: 0 };
    // SAFETY: `time` is a timespec that is lent to this call alone.
    let status = unsafe { clock_gettime(CLOCK_THREAD_CPUTIME_ID, &mut time) };
    assert_eq!(status, 0, "the thread's clock");
    Duration::new(time.seconds as u64, time.nanoseconds as u32)
}
