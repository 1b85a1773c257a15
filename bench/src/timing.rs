//! The best of several runs that take turns.

use std::hint::black_box;
use std::time::{Duration, Instant};

/// Runs the tasks in turn, so many times, and gives each one's shortest time. What else the machine
/// does meanwhile then falls on all of them alike.
pub fn best_of<const COUNT: usize>(
    runs: usize,
    tasks: [&mut dyn FnMut(); COUNT],
) -> [Duration; COUNT] {
    best_of_longer(runs, Duration::ZERO, tasks)
}

/// The same, and goes on until this time has passed: the shortest of a few runs of some microseconds
/// says little.
pub fn best_of_longer<const COUNT: usize>(
    least_runs: usize,
    least_time: Duration,
    mut tasks: [&mut dyn FnMut(); COUNT],
) -> [Duration; COUNT] {
    let mut best = [Duration::MAX; COUNT];
    let mut runs = 0;
    let first = Instant::now();
    while runs < least_runs || first.elapsed() < least_time {
        for (task, best) in tasks.iter_mut().zip(&mut best) {
            let begun = Instant::now();
            task();
            *best = begun.elapsed().min(*best);
        }
        runs += 1;
    }
    best
}

/// Takes a task's result, so that the compiler cannot leave its making out.
pub fn take<T>(result: T) {
    black_box(result);
}

/// The nanoseconds for each of so many.
pub fn nanoseconds_each(time: Duration, count: u64) -> f64 {
    time.as_nanos() as f64 / count as f64
}

pub fn ratio(one: Duration, other: Duration) -> f64 {
    one.as_secs_f64() / other.as_secs_f64()
}
