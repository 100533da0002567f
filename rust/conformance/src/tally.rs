//! How often each number came up, and at which places.

use std::collections::{BTreeMap, BTreeSet};

#[derive(Debug, Default)]
pub struct Tally {
    times: BTreeMap<u64, u64>,
    places: BTreeMap<u64, BTreeSet<u64>>,
}

impl Tally {
    pub fn note(&mut self, number: u64, place: u64) {
        *self.times.entry(number).or_default() += 1;
        self.places.entry(number).or_default().insert(place);
    }

    /// The numbers that came up, ascending.
    pub fn numbers(&self) -> Vec<u64> {
        self.times.keys().copied().collect()
    }

    /// How often any number came up.
    pub fn all(&self) -> u64 {
        self.times.values().sum()
    }

    pub fn times(&self, number: u64) -> u64 {
        self.times.get(&number).copied().unwrap_or(0)
    }

    /// At how many places a number came up.
    pub fn places(&self, number: u64) -> usize {
        self.places.get(&number).map_or(0, BTreeSet::len)
    }

    /// The last place at which a number came up.
    pub fn last_place(&self, number: u64) -> u64 {
        self.places.get(&number).and_then(|places| places.last().copied()).unwrap_or(0)
    }

    /// Each number, how often it came up, and at how many places.
    pub fn shown(&self) -> String {
        let one = |(number, times): (&u64, &u64)| {
            format!("{number}: {times} at {}", self.places(*number))
        };
        self.times.iter().map(one).collect::<Vec<String>>().join(", ")
    }
}
