//! Timing: contestants take turns, so that a busy moment of the machine hits all alike.

use crate::answer::Answer;
use crate::text::micros;
use std::hint::black_box;
use std::time::Instant;

/// How long and how often each contestant is timed.
#[derive(Clone, Copy)]
pub struct Effort {
    pub rounds: usize,
    /// Nanoseconds that a batch takes at least.
    pub batch: f64,
}

/// What is timed: work that is done so many times in one call, and what it answers.
pub struct Runner<'a> {
    work: Box<dyn FnMut(usize) -> Answer + 'a>,
}

impl<'a> Runner<'a> {
    pub fn new(work: impl FnMut(usize) -> Answer + 'a) -> Runner<'a> {
        Runner { work: Box::new(work) }
    }

    pub fn answer(&mut self) -> Answer {
        (self.work)(1)
    }

    /// Nanoseconds of one call.
    fn call(&mut self, times: usize) -> f64 {
        let before = Instant::now();
        black_box((self.work)(black_box(times)));
        before.elapsed().as_secs_f64() * 1e9
    }

    /// Nanoseconds of doing the work so many times, without what a call does but once.
    fn batch(&mut self, times: usize) -> f64 {
        let once = self.call(1).min(self.call(1));
        (self.call(1 + times) - once).max(1.0)
    }

    /// How often the work is done in a batch.
    fn times(&mut self, batch: f64) -> usize {
        let mut times = 1;
        while self.batch(times) < batch {
            times *= 2;
        }
        times
    }
}

/// Nanoseconds of doing a work once, one number for each round.
pub struct Times(Vec<f64>);

impl Times {
    fn best(&self) -> f64 {
        self.0.iter().copied().fold(f64::INFINITY, f64::min)
    }

    fn median(&self) -> f64 {
        median(self.0.clone())
    }

    /// The best and the median time, in microseconds.
    pub fn cells(&self) -> [String; 2] {
        [micros(self.best()), micros(self.median())]
    }

    /// The median of the ratios of each round.
    pub fn ratio(&self, other: &Times) -> f64 {
        median(self.0.iter().zip(&other.0).map(|(a, b)| a / b).collect())
    }
}

fn median(mut numbers: Vec<f64>) -> f64 {
    numbers.sort_by(f64::total_cmp);
    numbers[numbers.len() / 2]
}

/// Times all, one batch of each in every round.
pub fn interleave(runners: &mut [Runner], effort: Effort) -> Vec<Times> {
    let counts: Vec<usize> = runners.iter_mut().map(|runner| runner.times(effort.batch)).collect();
    let mut times: Vec<Times> = runners.iter().map(|_| Times(Vec::new())).collect();
    for _ in 0..effort.rounds {
        let turns = runners.iter_mut().zip(&counts).zip(&mut times);
        turns.for_each(|((runner, &count), times)| times.0.push(runner.batch(count) / count as f64));
    }
    times
}
