//! A comparison: how many inputs gave what was expected, and how often each case came up among them, so that a run
//! which tries too little is seen, and fails.

use super::*;
use std::collections::HashMap;
use std::fmt::Debug;
use std::process::exit;

/// A case: its name, and what makes an input one of it, seen with all that is expected of it.
pub type Case<T> = (&'static str, fn(&T) -> bool);

pub fn names<T>(cases: &[Case<T>]) -> Vec<String> { cases.iter().map(|(name, _)| name.to_string()).collect() }

/// How often each case came up.
#[derive(Default)]
pub struct Seen(HashMap<String, usize>);

impl Seen {
    pub fn add_times(&mut self, name: impl Into<String>, times: usize) {
        *self.0.entry(name.into()).or_default() += times;
    }
    pub fn add(&mut self, name: impl Into<String>) { self.add_times(name, 1); }
    /// Adds those of the cases that an input is.
    pub fn add_cases<T>(&mut self, cases: &[Case<T>], tried: &T) {
        cases.iter().filter(|(_, is_one)| is_one(tried)).for_each(|(name, _)| self.add(*name));
    }
    pub fn times(&self, name: &str) -> usize { self.0.get(name).copied().unwrap_or(0) }
}

pub struct Comparison { name: &'static str, pub seen: Seen, passed: usize, failed: usize, missing: Vec<String> }

impl Comparison {
    /// Compares so many inputs, and prints the first that differ: `drawn` is the input of a number with all that is
    /// expected of it; `difference` counts what it is, and says what is wrong with its outcome, if anything is.
    pub fn of<T: Debug>(
        name: &'static str,
        inputs: usize,
        drawn: impl Fn(&mut Random, usize) -> T,
        difference: impl Fn(&T, &mut Random, &mut Library, &mut Seen) -> Option<String>,
    ) -> Comparison {
        let (mut random, mut library) = (Random::seeded(), Library::started());
        let mut comparison = Comparison { name, seen: Seen::default(), passed: 0, failed: 0, missing: vec![] };
        for i in 0..inputs {
            let tried = drawn(&mut random, i);
            let Some(what) = difference(&tried, &mut random, &mut library, &mut comparison.seen) else {
                comparison.passed += 1;
                continue;
            };
            comparison.failed += 1;
            if comparison.failed <= 5 {
                println!("{name}: input {i}: {what}\n  {tried:?}");
            }
        }
        println!("{name}: {inputs} inputs");
        comparison
    }

    /// How often each of the cases is due.
    pub fn require(&mut self, times: usize, names: impl IntoIterator<Item = String>) {
        self.missing.extend(names.into_iter().filter(|name| self.seen.times(name) < times));
    }

    /// The same, and prints how often each came up.
    pub fn tell(&mut self, times: usize, names: Vec<String>) {
        let lines: Vec<String> = names.iter().map(|name| format!("{name}: {}", self.seen.times(name))).collect();
        println!("{}: {}", self.name, lines.join("; "));
        self.require(times, names);
    }

    /// Prints what was tried too seldom, and both numbers. Ends the program where something failed or is missing.
    pub fn end(self, compared: &str) {
        if !self.missing.is_empty() {
            println!("{}: tried too seldom: {}", self.name, self.missing.join("; "));
        }
        println!("{compared}: {} passed, {} failed", self.passed, self.failed);
        if self.failed > 0 || !self.missing.is_empty() {
            exit(1);
        }
    }
}
