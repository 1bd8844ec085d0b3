// Times of a call: the least mean of several rounds, each of enough calls, in nanoseconds.
use std::hint::black_box;
use std::time::Instant;

pub const ROUNDS: usize = 25;
const ROUND_NS: f64 = 6e5;

fn mean<T>(calls: u32, call: &mut impl FnMut() -> T) -> f64 {
    let start = Instant::now();
    for _ in 0..calls {
        black_box(call());
    }
    start.elapsed().as_nanos() as f64 / calls as f64
}

// How many calls fill a round; finding out is the warm-up.
fn round<T>(call: &mut impl FnMut() -> T) -> u32 {
    let mut calls = 1;
    while mean(calls, call) * (calls as f64) < ROUND_NS {
        calls *= 2;
    }
    calls
}

pub fn least<T>(mut call: impl FnMut() -> T) -> f64 {
    let calls = round(&mut call);
    (0..ROUNDS).map(|_| mean(calls, &mut call)).fold(f64::MAX, f64::min)
}

// Two calls in turn, so that a busy machine slows both.
pub fn pair<S, T>(mut one: impl FnMut() -> S, mut other: impl FnMut() -> T) -> (f64, f64) {
    let calls = (round(&mut one), round(&mut other));
    let mut best = (f64::MAX, f64::MAX);
    for _ in 0..ROUNDS {
        best.0 = best.0.min(mean(calls.0, &mut one));
        best.1 = best.1.min(mean(calls.1, &mut other));
    }
    best
}

// Calls over one buffer in turn: the times of each in every round.
pub fn in_turn<B, const N: usize>(rounds: usize, buffer: &mut B, mut calls: [&mut dyn FnMut(&mut B); N]) -> Vec<[f64; N]> {
    let counts = calls.each_mut().map(|call| round(&mut || call(buffer)));
    let mut turn = |_| std::array::from_fn(|i| mean(counts[i], &mut || calls[i](buffer)));
    (0..rounds).map(|round| turn(round)).collect()
}

// The least time of call i, in ms.
pub fn least_ms<const N: usize>(rounds: &[[f64; N]], i: usize) -> f64 {
    rounds.iter().map(|times| times[i]).fold(f64::MAX, f64::min) / 1e6
}

// The median over the rounds of the first call's time over that of call i: what else the machine does slows both.
pub fn ratio<const N: usize>(rounds: &[[f64; N]], i: usize) -> f64 {
    let mut ratios: Vec<f64> = rounds.iter().map(|times| times[0] / times[i]).collect();
    ratios.sort_by(f64::total_cmp);
    ratios[ratios.len() / 2]
}
