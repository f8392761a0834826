//! The clock: works that take turns in short blocks.
use std::time::Instant;

/// About how many nanoseconds a block takes at least: short, so that some block of many is left in
/// peace by other programs.
const BLOCK: f64 = 100_000.0;

/// The least time of a turn of each of `works`, in nanoseconds, over blocks that take
/// turns. Each round begins with another of them: what runs after a copy finds its memory
/// out of the caches, what runs after a work on the same memory finds it there. A work is
/// told which of the inputs to take.
pub fn best(rounds: u64, inputs: usize, works: &mut [&mut dyn FnMut(usize)]) -> Vec<f64> {
    let turns: Vec<usize> =
        works.iter_mut().map(|w| (BLOCK / timed(inputs, inputs, w)).ceil() as usize).collect();
    let mut least = vec![f64::INFINITY; works.len()];
    for round in 0..rounds as usize {
        for place in 0..turns.len() {
            let k = (round + place) % turns.len();
            let whole = turns[k].next_multiple_of(inputs);
            least[k] = least[k].min(timed(whole, inputs, &mut works[k]));
        }
    }
    least
}

/// Nanoseconds a turn.
fn timed(turns: usize, inputs: usize, work: &mut &mut dyn FnMut(usize)) -> f64 {
    let start = Instant::now();
    for turn in 0..turns {
        work(turn % inputs);
    }
    start.elapsed().as_nanos() as f64 / turns as f64
}
