//! How long calls take that take turns, in processor time of the calling thread: other work on the
//! machine does not count, though it may slow the processor down, for all of them alike.

use std::time::Duration;

/// What is to be timed.
pub type Call<'c> = &'c dyn Fn();

/// One turn of a call goes on for at least so long: the clock itself takes some tenths of a microsecond.
const TURN: Duration = Duration::from_micros(200);
const FEWEST_TURNS: usize = 5;
const MOST_TURNS: usize = 2_001;

/// The times of a call in many turns, in microseconds, in order.
#[derive(Debug, Clone, Default)]
pub struct Times(Vec<f64>);

impl Times {
    pub fn least(&self) -> f64 {
        self.0[0]
    }

    pub fn median(&self) -> f64 {
        self.0[self.0.len() / 2]
    }

    pub fn turns(&self) -> usize {
        self.0.len()
    }
}

/// Times the calls for about so long together. Each turn asks every one of them, every other turn in
/// reverse.
pub fn in_turns(calls: &[Call<'_>], patience: Duration) -> Vec<Times> {
    let mut order: Vec<usize> = (0..calls.len()).collect();
    let counts: Vec<usize> = calls.iter().map(|call| calls_a_turn(call)).collect();
    let one_turn: Duration =
        calls.iter().zip(&counts).map(|(call, count)| turn(call, *count)).sum();
    let turns = patience.as_nanos() / one_turn.as_nanos().max(1);
    let turns = (turns as usize).clamp(FEWEST_TURNS, MOST_TURNS);
    let mut times = vec![Times::default(); calls.len()];
    for _ in 0..turns {
        for number in &order {
            let time = turn(calls[*number], counts[*number]);
            times[*number].0.push(time.as_secs_f64() * 1e6 / counts[*number] as f64);
        }
        order.reverse();
    }
    for times in &mut times {
        times.0.sort_by(f64::total_cmp);
    }
    times
}

/// How often to call within a turn: doubled until it is long enough.
fn calls_a_turn(call: Call<'_>) -> usize {
    let mut count = 1;
    while turn(call, count) < TURN {
        count *= 2;
    }
    count
}

fn turn(call: Call<'_>, count: usize) -> Duration {
    let start = processor_time();
    for _ in 0..count {
        call();
    }
    processor_time() - start
}

/// `struct timespec` and the clock's number as they are on x86-64 Linux, for which the archive is.
#[repr(C)]
struct TimeSpec {
    seconds: i64,
    nanoseconds: i64,
}

const CLOCK_THREAD_CPUTIME_ID: i32 = 3;

extern "C" {
    fn clock_gettime(clock: i32, time: *mut TimeSpec) -> i32;
}

/// How long this thread has worked.
fn processor_time() -> Duration {
    let mut time = TimeSpec { seconds: 0, nanoseconds: 0 };
    // SAFETY: the pointer leads to a `struct timespec` that is ours.
    let status = unsafe { clock_gettime(CLOCK_THREAD_CPUTIME_ID, &mut time) };
    assert_eq!(status, 0, "every thread has a clock");
    Duration::new(time.seconds as u64, time.nanoseconds as u32)
}

#[cfg(test)]
mod tests {
    use super::*;
    use std::cell::Cell;

    #[test]
    fn both_take_part_in_every_turn() {
        let work = |count: u64| (0..count).fold(0, |sum, step| std::hint::black_box(sum ^ step));
        let asked = Cell::new([0, 0]);
        let ask = |which: usize, count: u64| {
            let mut both = asked.get();
            both[which] += 1;
            asked.set(both);
            std::hint::black_box(work(count));
        };
        let (short, long) = (|| ask(0, 1_000), || ask(1, 20_000));
        let times = in_turns(&[&short, &long], Duration::from_millis(5));
        assert_eq!(times[0].turns(), times[1].turns());
        assert!(times[0].turns() >= FEWEST_TURNS);
        assert!(times.iter().all(|times| times.least() <= times.median()));
        assert!(times[0].least() < times[1].least());
        assert!(asked.get()[0] > asked.get()[1]);
    }
}
