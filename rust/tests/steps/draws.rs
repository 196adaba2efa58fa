//! How many inputs a test draws, and from which seed: as the test says or, for a longer run, as the environment does.
use std::env;
use vowherunga::reference::draw::Rng;

pub struct Draws {
    /// As many as the test says.
    usual: usize,
    pub count: usize,
    pub rng: Rng,
}

/// The number that a variable holds, if it is set.
fn number(variable: &str) -> Option<u64> {
    let text = env::var(variable).ok()?;
    Some(text.parse().unwrap_or_else(|e| panic!("{variable}={text}: {e}")))
}

impl Draws {
    /// `STEPS_COUNT` and `STEPS_SEED`, where they are set, stand for these two.
    pub fn new(usual: usize, seed: u64) -> Draws {
        let count = number("STEPS_COUNT").map_or(usual, |n| n as usize);
        let seed = number("STEPS_SEED").unwrap_or(seed);
        println!("{count} draws from seed {seed}");
        Draws {
            usual,
            count,
            rng: Rng::new(seed),
        }
    }

    /// What so many of the usual draws are of these.
    pub fn share(&self, n: usize) -> usize {
        n * self.count / self.usual
    }

    /// How many runs at least have to end how, by their numbers in the usual draws.
    pub fn endings<const N: usize>(&self, least: [(&'static str, usize); N]) -> [(&'static str, usize); N] {
        least.map(|(ending, n)| (ending, self.share(n)))
    }
}
