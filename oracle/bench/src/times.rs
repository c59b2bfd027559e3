//! A time as the median over short batches.

use std::time::Instant;

const BATCHES: usize = 64;

/// All cases in turn: nanoseconds a call in each batch of them. Every answer is looked at, so that none is left out.
pub fn pass<C>(cases: &[C], mut answered: impl FnMut(&C) -> bool) -> Vec<f64> {
    let batch = |batch: &[C]| {
        let start = Instant::now();
        let answers = batch.iter().filter(|case| answered(case)).count();
        let time = start.elapsed();
        assert_eq!(answers, batch.len());
        time.as_nanos() as f64 / batch.len() as f64
    };
    cases.chunks(cases.len().div_ceil(BATCHES)).map(batch).collect()
}

/// What each batch took beyond another pass over the same batches.
pub fn beyond<'a>(times: &'a [f64], others: &'a [f64]) -> impl Iterator<Item = f64> + 'a {
    times.iter().zip(others).map(|(time, other)| time - other)
}

pub fn median(mut times: Vec<f64>) -> f64 {
    times.sort_by(f64::total_cmp);
    times[times.len() / 2]
}
