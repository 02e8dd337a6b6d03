//! How two calls are timed beside each other: in turn, in one run, the best of some rounds, by the
//! clock on the wall; a round is short, so that the best one was not interrupted. A call that takes a
//! round or longer is timed by how long its thread ran, since it is interrupted where others run.

use std::hint::black_box;
use std::sync::OnceLock;
use std::time::{Duration, Instant};

const ROUNDS: usize = 60;
const ROUND_NANOSECONDS: f64 = 1e6;

/// Numbers that look random and are the same each time (splitmix64).
pub fn next(state: &mut u64) -> u64 {
    *state = state.wrapping_add(0x9E37_79B9_7F4A_7C15);
    let mut word = *state;
    word = (word ^ (word >> 30)).wrapping_mul(0xBF58_476D_1CE4_E5B9);
    word = (word ^ (word >> 27)).wrapping_mul(0x94D0_49BB_1331_11EB);
    word ^ (word >> 31)
}

/// A call's answer in one number, so that two can be held together.
pub fn mix(sum: u64, part: u64) -> u64 {
    sum.rotate_left(5) ^ part
}

pub fn mix_all(parts: impl IntoIterator<Item = u64>) -> u64 {
    parts.into_iter().fold(0, mix)
}

/// One side: what it works on, what makes that ready, which is not timed, and the calls.
pub struct Side<State, Ready, Calls> {
    state: State,
    ready: Ready,
    calls: Calls,
}

/// The side whose calls leave all as they found it, or do not mind.
pub fn steady<State, Calls: FnMut(&mut State) -> u64>(
    state: State,
    calls: Calls,
) -> Side<State, fn(&mut State), Calls> {
    readied(state, |_| (), calls)
}

/// The side that is made ready before its calls.
pub fn readied<State, Ready: FnMut(&mut State), Calls: FnMut(&mut State) -> u64>(
    state: State,
    ready: Ready,
    calls: Calls,
) -> Side<State, Ready, Calls> {
    Side {
        state,
        ready,
        calls,
    }
}

impl<State, Ready: FnMut(&mut State), Calls: FnMut(&mut State) -> u64> Side<State, Ready, Calls> {
    pub fn answer(&mut self) -> u64 {
        (self.ready)(&mut self.state);
        (self.calls)(&mut self.state)
    }

    /// The nanoseconds of the calls once.
    fn pass(&mut self, repeat: usize) -> f64 {
        if repeat == 1 {
            return self.long_pass();
        }
        let mut spent = Duration::ZERO;
        for _ in 0..repeat {
            (self.ready)(&mut self.state);
            let begin = Instant::now();
            black_box((self.calls)(&mut self.state));
            spent += begin.elapsed();
        }
        spent.as_nanos() as f64 / repeat as f64 - clock()
    }

    fn long_pass(&mut self) -> f64 {
        (self.ready)(&mut self.state);
        let begin = ran();
        black_box((self.calls)(&mut self.state));
        (ran() - begin).as_nanos() as f64
    }

    fn repeats(&mut self) -> usize {
        let once = (0..3).map(|_| self.pass(2)).fold(f64::MAX, f64::min);
        ((ROUND_NANOSECONDS / once.max(1.0)) as usize).clamp(1, 10_000)
    }
}

/// How long this thread has run.
fn ran() -> Duration {
    const THREAD_CPUTIME: i32 = 3;
    extern "C" {
        fn clock_gettime(clock: i32, time: *mut [i64; 2]) -> i32;
    }
    let mut time = [0; 2];
    let failed = unsafe { clock_gettime(THREAD_CPUTIME, &mut time) };
    assert_eq!(failed, 0);
    Duration::new(time[0] as u64, time[1] as u32)
}

/// The nanoseconds that looking at the clock adds, at best.
fn clock() -> f64 {
    static ADDED: OnceLock<f64> = OnceLock::new();
    *ADDED.get_or_init(|| {
        let looks = 100;
        let once = |_| {
            let spent: Duration = (0..looks).map(|_| Instant::now().elapsed()).sum();
            spent.as_nanos() as f64 / looks as f64
        };
        (0..ROUNDS).map(once).fold(f64::MAX, f64::min)
    })
}

/// The nanoseconds of one call on either side, where each side makes so many at a time.
pub fn times<S, T>(
    calls: usize,
    library: &mut Side<S, impl FnMut(&mut S), impl FnMut(&mut S) -> u64>,
    rust: &mut Side<T, impl FnMut(&mut T), impl FnMut(&mut T) -> u64>,
) -> [f64; 2] {
    let repeats = [library.repeats(), rust.repeats()];
    let mut best = [f64::MAX; 2];
    for _ in 0..ROUNDS {
        best[0] = best[0].min(library.pass(repeats[0]));
        best[1] = best[1].min(rust.pass(repeats[1]));
    }
    best.map(|nanoseconds| nanoseconds / calls as f64)
}

/// The nanoseconds of one call of the library alone.
pub fn time<S>(
    calls: usize,
    library: &mut Side<S, impl FnMut(&mut S), impl FnMut(&mut S) -> u64>,
) -> f64 {
    let repeats = library.repeats();
    let best = (0..ROUNDS).map(|_| library.pass(repeats));
    best.fold(f64::MAX, f64::min) / calls as f64
}

pub fn line(name: &str, [library, rust]: [f64; 2]) -> String {
    format!(
        "{name:38} {library:>11.2} {rust:>11.2} {:>8.2}",
        library / rust
    )
}
