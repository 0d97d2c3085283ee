//! The clock: two ways to do the same, in batches that alternate.

use std::hint::black_box;
use std::time::Instant;

/// Batches of each of the two.
pub const BATCHES: usize = 301;
/// Batches of each of many.
const ROUNDS: usize = 101;
/// How long a batch takes at least, in nanoseconds.
const BATCH: f64 = 200_000.0;

/// Nanoseconds for each call of two ways, batch by batch.
#[derive(Clone, Debug, Default)]
pub struct Times([Vec<f64>; 2]);

impl Times {
    /// Gives the median of each.
    pub fn medians(&self) -> [f64; 2] {
        self.0.each_ref().map(|side| quantile(side, 0.5))
    }

    /// Gives the tenth, the fiftieth and the ninetieth percentile of the ratios of batches that
    /// stood side by side, the one over the other.
    pub fn ratios(&self) -> [f64; 3] {
        let [one, other] = &self.0;
        let ratios: Vec<f64> = one.iter().zip(other).map(|(a, b)| a / b).collect();
        [0.1, 0.5, 0.9].map(|part| quantile(&ratios, part))
    }
}

/// Gives the value that this part of the values is below.
fn quantile(values: &[f64], part: f64) -> f64 {
    let mut sorted = values.to_vec();
    sorted.sort_by(f64::total_cmp);
    sorted[((sorted.len() - 1) as f64 * part).round() as usize]
}

/// Gives the nanoseconds for each of so many calls.
fn batch<T>(calls: u32, call: &mut (impl FnMut() -> T + ?Sized)) -> f64 {
    let begun = Instant::now();
    for _ in 0..calls {
        black_box(call());
    }
    begun.elapsed().as_nanos() as f64 / f64::from(calls)
}

/// Gives how many calls a batch has.
fn calls<T>(call: &mut (impl FnMut() -> T + ?Sized)) -> u32 {
    let mut calls = 1;
    loop {
        let taken = batch(calls, call) * f64::from(calls);
        if taken >= BATCH {
            return calls;
        }
        calls *= 2;
    }
}

/// Times two ways in batches that alternate.
pub fn both<A, B>(mut one: impl FnMut() -> A, mut other: impl FnMut() -> B) -> Times {
    let counts = [calls(&mut one), calls(&mut other)];
    let mut times = Times::default();
    for _ in 0..BATCHES {
        times.0[0].push(batch(counts[0], &mut one));
        times.0[1].push(batch(counts[1], &mut other));
    }
    times
}

/// Gives for each of many ways the nanoseconds that a tenth of its batches is below: what it takes
/// undisturbed. The ways take turns, so that no stretch of time falls on one of them alone.
pub fn undisturbed<T>(ways: &mut [Box<dyn FnMut() -> T + '_>]) -> Vec<f64> {
    let counts: Vec<u32> = ways.iter_mut().map(|way| calls(way.as_mut())).collect();
    let mut times = vec![Vec::new(); ways.len()];
    for _ in 0..ROUNDS {
        for ((way, &count), times) in ways.iter_mut().zip(&counts).zip(&mut times) {
            times.push(batch(count, way.as_mut()));
        }
    }
    times.iter().map(|times| quantile(times, 0.1)).collect()
}
