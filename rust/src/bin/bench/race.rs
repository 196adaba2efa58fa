//! Sides of a race: calls whose times are compared. They are timed in batches that alternate, in several rounds over all races, so that what
//! else the machine does falls on all sides alike.
use std::time::{Duration, Instant};

/// A side makes so many calls.
pub type Side = Box<dyn FnMut(u64)>;

/// How long a batch takes at least, and how long a race takes in each round.
const BATCH: Duration = Duration::from_micros(40);
const ROUND: Duration = Duration::from_millis(30);

pub struct Race {
    sides: Vec<(Side, u64)>,
    /// For each side the times of a call in ns, by round.
    rounds: Vec<Vec<Vec<f64>>>,
}

/// What a race gave.
pub struct Result {
    /// For each side the median time of a call in ns.
    pub times: Vec<f64>,
    /// The ratio of the last side's time to the first's: its median over the rounds, its least and its largest.
    pub ratio: f64,
    pub least: f64,
    pub largest: f64,
}

fn median(times: &[f64]) -> f64 {
    let mut sorted = times.to_vec();
    sorted.sort_by(f64::total_cmp);
    sorted[sorted.len() / 2]
}

fn time(side: &mut Side, calls: u64) -> Duration {
    let start = Instant::now();
    side(calls);
    start.elapsed()
}

impl Race {
    pub fn new(sides: Vec<Side>) -> Race {
        let rounds = sides.iter().map(|_| Vec::new()).collect();
        let sides = sides.into_iter().map(|side| (side, 1)).collect();
        Race { sides, rounds }
    }

    /// How many calls make a batch. The first call, which may find memory that was never touched, is not counted.
    fn calibrate(&mut self) {
        for (side, calls) in &mut self.sides {
            side(1);
            while time(side, *calls) < BATCH {
                *calls *= 2;
            }
        }
    }

    pub fn round(&mut self) {
        if self.rounds[0].is_empty() {
            self.calibrate();
        }
        self.rounds.iter_mut().for_each(|times| times.push(Vec::new()));
        let start = Instant::now();
        // the first batches of a round find cold caches and are not counted
        for batch in 0.. {
            for ((side, calls), rounds) in self.sides.iter_mut().zip(&mut self.rounds) {
                let ns = time(side, *calls).as_nanos() as f64 / *calls as f64;
                if batch > 0 {
                    rounds.last_mut().unwrap().push(ns);
                }
            }
            if batch >= 3 && start.elapsed() > ROUND {
                break;
            }
        }
    }

    pub fn result(&self) -> Result {
        let times = self.rounds.iter().map(|rounds| median(&rounds.concat())).collect();
        let (first, last) = (&self.rounds[0], &self.rounds[self.rounds.len() - 1]);
        let ratios: Vec<f64> = first.iter().zip(last).map(|(f, l)| median(l) / median(f)).collect();
        Result {
            times,
            ratio: median(&ratios),
            least: ratios.iter().copied().fold(f64::INFINITY, f64::min),
            largest: ratios.iter().copied().fold(0.0, f64::max),
        }
    }
}
