//! Counting cases and differences.
use crate::shrink;
use std::collections::BTreeMap;
use std::fmt::Debug;

/// How many differences of a part are printed whole; a worker shrinks the first that it finds.
const SHOWN: usize = 3;

/// What one worker has done.
#[derive(Default)]
pub struct Tally {
    pub cases: u64,
    pub differences: u64,
    counters: BTreeMap<String, u64>,
    /// The greatest value told under each name.
    greatest: BTreeMap<String, f64>,
    messages: Vec<String>,
    shrunk: bool,
}

impl Tally {
    /// One more under this name.
    pub fn count(&mut self, name: &str) {
        self.add(name, 1);
    }

    pub fn add(&mut self, name: &str, n: u64) {
        match self.counters.get_mut(name) {
            Some(c) => *c += n,
            None => {
                self.counters.insert(name.to_string(), n);
            }
        }
    }

    /// The greatest of the values told under this name is printed.
    pub fn greatest(&mut self, name: &str, value: f64) {
        let kept = self.greatest.entry(name.to_string()).or_insert(value);
        if value > *kept {
            *kept = value;
        }
    }

    pub fn counted(&self, name: &str) -> u64 {
        self.counters.get(name).copied().unwrap_or(0)
    }

    /// One case. `check` answers what the case reached, for the caller's counters, and what differs, if anything does.
    /// A difference is printed with the smallest input that `smaller` leads to.
    pub fn case<I: Clone + Debug, R>(
        &mut self,
        input: &I,
        check: impl Fn(&I) -> (R, Option<String>),
        smaller: impl Fn(&I) -> Vec<I>,
    ) -> R {
        self.cases += 1;
        let (reached, difference) = check(input);
        if difference.is_some() {
            self.differences += 1;
            if !self.shrunk {
                self.shrunk = true;
                let least = shrink::smallest(input, smaller, |i| check(i).1.is_some());
                let words = check(&least).1.unwrap_or_default();
                self.messages.push(format!("{words}\n    smallest input: {least:?}\n    found as: {input:?}"));
            }
        }
        reached
    }

    /// A difference that has no input to shrink.
    pub fn difference(&mut self, words: String) {
        self.differences += 1;
        if self.messages.len() < 4 * SHOWN {
            self.messages.push(words);
        }
    }

    pub fn merge(&mut self, other: Tally) {
        self.cases += other.cases;
        self.differences += other.differences;
        for (name, n) in other.counters {
            *self.counters.entry(name).or_insert(0) += n;
        }
        for (name, value) in other.greatest {
            self.greatest(&name, value);
        }
        for message in other.messages {
            if self.messages.len() < SHOWN {
                self.messages.push(message);
            }
        }
    }

    pub(crate) fn counters(&self) -> &BTreeMap<String, u64> {
        &self.counters
    }

    pub(crate) fn greatests(&self) -> &BTreeMap<String, f64> {
        &self.greatest
    }

    pub(crate) fn messages(&self) -> &[String] {
        &self.messages
    }
}
