//! Times taken in turns, so that what the machine does beside them meets all alike.

use std::time::{Duration, Instant};

/// How long a sample takes at least, so that starting and stopping it doesn't show.
const SAMPLE: Duration = Duration::from_millis(20);

/// Samples of each.
const ROUNDS: usize = 11;

/// Something that can be done so many times.
pub struct Timed<'a>(Box<dyn FnMut(u64) + 'a>);

impl<'a> Timed<'a> {
    pub fn new(run: impl FnMut(u64) + 'a) -> Timed<'a> {
        Timed(Box::new(run))
    }

    /// Something that is done once a turn.
    pub fn each<T>(mut once: impl FnMut() -> T + 'a) -> Timed<'a> {
        Timed::new(move |turns| {
            for _ in 0..turns {
                std::hint::black_box(once());
            }
        })
    }

    fn sample(&mut self, turns: u64) -> Duration {
        let start = Instant::now();
        (self.0)(turns);
        start.elapsed()
    }

    /// So many turns that they take as long as a sample, and everything is warm.
    fn turns(&mut self) -> u64 {
        let mut turns = 1;
        loop {
            let took = self.sample(turns);
            if took >= SAMPLE {
                return turns;
            }
            let wanted = SAMPLE.as_nanos() as f64 / (took.as_nanos().max(1)) as f64;
            turns = ((turns as f64 * wanted * 1.1) as u64).clamp(turns + 1, turns * 100);
        }
    }
}

/// Times of a turn of each, in nanoseconds, one of each in every round.
pub struct Samples(Vec<Vec<f64>>);

impl Samples {
    pub fn of(timed: &mut [Timed<'_>]) -> Samples {
        let turns: Vec<u64> = timed.iter_mut().map(Timed::turns).collect();
        let round = |_| timed.iter_mut().zip(&turns).map(|(each, &turns)| each.sample(turns).as_nanos() as f64 / turns as f64).collect();
        Samples((0..ROUNDS).map(round).collect())
    }

    pub fn medians(&self) -> Vec<f64> {
        (0..self.0[0].len()).map(|i| self.median(|round| round[i])).collect()
    }

    /// The median of what comes of the times of a round: a ratio of two that were taken together.
    pub fn median(&self, of: impl Fn(&[f64]) -> f64) -> f64 {
        median(self.0.iter().map(|round| of(round)).collect())
    }
}

fn median(mut of: Vec<f64>) -> f64 {
    of.sort_by(f64::total_cmp);
    of[of.len() / 2]
}

/// A time in the unit that suits it.
pub fn shown(nanoseconds: f64) -> String {
    match nanoseconds {
        n if n < 1e3 => format!("{n:.0} ns"),
        n if n < 1e6 => format!("{:.2} µs", n / 1e3),
        n => format!("{:.2} ms", n / 1e6),
    }
}
