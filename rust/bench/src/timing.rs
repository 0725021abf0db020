//! Times of calls: medians of many samples, the library's and the twin's taken by turns, so that
//! whatever else the machine does falls on both.

use std::time::Instant;

/// Samples of each side, and about how long each takes: far less than another program is given the
/// processor for, so that few samples are held up.
const SAMPLES: usize = 301;
const SAMPLE_NS: f64 = 2e5;

/// What has to be put back in the pool before a call can be made again.
#[derive(Clone, Copy)]
pub enum Restore {
    Nothing,
    /// Words 0 to 3; what a load wrote beyond them is out of use then.
    Totals,
    All,
}

/// One side: a pool, what it is at the start, and a call on it.
pub struct Side<'a> {
    pool: Vec<u64>,
    start: &'a [u64],
    restore: Restore,
    call: &'a mut dyn FnMut(&mut [u64]),
}

impl<'a> Side<'a> {
    pub fn new(
        start: &'a [u64],
        restore: Restore,
        call: &'a mut dyn FnMut(&mut [u64]),
    ) -> Side<'a> {
        let pool = start.to_vec();
        Side {
            pool,
            start,
            restore,
            call,
        }
    }

    /// The time of a call in ns, from so many calls.
    fn sample(&mut self, calls: usize) -> f64 {
        match self.restore {
            Restore::Nothing => {
                let start = Instant::now();
                for _ in 0..calls {
                    (self.call)(&mut self.pool);
                }
                start.elapsed().as_nanos() as f64 / calls as f64
            }
            Restore::Totals => self.sample_restored(calls, 4),
            Restore::All => self.sample_restored(calls, self.start.len()),
        }
    }

    /// The same, with the first words put back before each call, outside of the time taken.
    fn sample_restored(&mut self, calls: usize, words: usize) -> f64 {
        let mut spent = 0;
        for _ in 0..calls {
            self.pool[..words].copy_from_slice(&self.start[..words]);
            let start = Instant::now();
            (self.call)(&mut self.pool);
            spent += start.elapsed().as_nanos();
        }
        spent as f64 / calls as f64
    }
}

/// The medians of both sides in ns a call.
pub fn medians(mut library: Side, mut twin: Side) -> (f64, f64) {
    let calls = (SAMPLE_NS / twin.sample(10)).clamp(1.0, 1e6) as usize;
    let mut times = (Vec::new(), Vec::new());
    for _ in 0..SAMPLES {
        times.0.push(library.sample(calls));
        times.1.push(twin.sample(calls));
    }
    (median(times.0), median(times.1))
}

fn median(mut times: Vec<f64>) -> f64 {
    times.sort_by(f64::total_cmp);
    times[times.len() / 2]
}
