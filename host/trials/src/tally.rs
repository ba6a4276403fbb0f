//! How often each answer was given: cases that are nearly all answered alike
//! would try little.

use second::generate::share::least;
use second::Refusal;
use std::collections::BTreeMap;
use std::fmt::{self, Display};

#[derive(Debug, Default, Clone, PartialEq, Eq)]
pub struct Tally(BTreeMap<String, usize>);

impl Tally {
    /// Counts something by its name.
    pub fn met(&mut self, name: impl Display) {
        *self.0.entry(name.to_string()).or_default() += 1;
    }

    /// Counts a text as accepted, which is 0, or by the number that refused it.
    pub fn count<T>(&mut self, answer: Result<T, Refusal>) {
        self.met(answer.map_or_else(|refusal| refusal.number, |_| 0));
    }

    pub fn times(&self, name: impl Display) -> usize {
        self.0.get(&name.to_string()).copied().unwrap_or(0)
    }

    /// How many were counted in all.
    pub fn texts(&self) -> usize {
        self.0.values().sum()
    }

    /// Adds what another tally counted.
    pub fn add(&mut self, other: &Tally) {
        for (name, times) in &other.0 {
            *self.0.entry(name.clone()).or_default() += times;
        }
    }

    /// Fails unless each of these was met so often, or as often as a share of the
    /// cases has to meet it.
    pub fn at_least<N: Display>(&self, what: &str, wanted: &[(N, usize)]) {
        for (name, times) in wanted {
            let (found, least) = (self.times(name), least(*times));
            assert!(found >= least, "{what}: {found} of {name}, not {least}");
        }
    }
}

impl Display for Tally {
    fn fmt(&self, to: &mut fmt::Formatter<'_>) -> fmt::Result {
        for (name, times) in &self.0 {
            writeln!(to, "{times:>10} {name}")?;
        }
        Ok(())
    }
}
