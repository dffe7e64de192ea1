//! The rounds of a random comparison: how many there are, from which seed they are drawn, how often each case was met, and a job as text.
//! Assumes nothing.

#![allow(dead_code)]

use crate::generate::Random;
use std::collections::BTreeMap;

/// Rounds among which each case is met often enough, and how often that is.
pub const MANY: u64 = 100_000;
const OFTEN: u64 = 10;

/// The program's two arguments: rounds, seed.
pub fn arguments() -> (u64, u64) {
    let mut numbers = std::env::args()
        .skip(1)
        .map(|text| text.parse().expect("a number"));
    (numbers.next().unwrap_or(MANY), numbers.next().unwrap_or(1))
}

/// Compares until as many were compared as the arguments ask for. `compare` answers how many it compared, or the first disagreement in
/// words, which ends the program.
pub fn compared(
    what: &str,
    wanted: Vec<String>,
    compare: impl Fn(&mut Random, &mut Met) -> Result<u64, String>,
) {
    compared_so_often(what, often(wanted), compare);
}

/// The same with how often each case must be met in a run of many rounds.
pub fn compared_so_often(
    what: &str,
    wanted: Vec<(String, u64)>,
    compare: impl Fn(&mut Random, &mut Met) -> Result<u64, String>,
) {
    let (asked, seed) = arguments();
    let mut random = Random::new(seed);
    let mut met = Met::default();
    let mut done = 0;
    while done < asked {
        done += compare(&mut random, &mut met).unwrap_or_else(|words| {
            println!("after {done} {what}: {words}");
            std::process::exit(1);
        });
    }
    if done == 0 {
        println!("no {what} were compared");
        std::process::exit(1);
    }
    met.finish_so_often(done, what, wanted);
}

/// Cases that must each be met often.
pub fn often(wanted: Vec<String>) -> Vec<(String, u64)> {
    wanted.into_iter().map(|case| (case, OFTEN)).collect()
}

/// How often each case was met.
#[derive(Default)]
pub struct Met(BTreeMap<String, u64>);

impl Met {
    pub fn add(&mut self, cases: Vec<String>) {
        for case in cases {
            *self.0.entry(case).or_default() += 1;
        }
    }

    /// Prints that all rounds agree, or ends the program where there were many and a wanted case was seldom met.
    pub fn finish(&self, rounds: u64, what: &str, wanted: Vec<String>) {
        self.finish_so_often(rounds, what, often(wanted));
    }

    /// The same with how often each case must be met.
    pub fn finish_so_often(&self, rounds: u64, what: &str, wanted: Vec<(String, u64)>) {
        let times = |case: &String| self.0.get(case).copied().unwrap_or(0);
        let seldom: Vec<String> = wanted
            .into_iter()
            .filter(|(case, least)| times(case) < *least)
            .map(|(case, least)| format!("{case} ({} of {least})", times(&case)))
            .collect();
        if rounds >= MANY && !seldom.is_empty() {
            println!("met too seldom: {}", seldom.join(", "));
            std::process::exit(1);
        }
        let rarest = self.0.iter().min_by_key(|(_, &times)| times);
        eprintln!("{} cases met; the rarest {rarest:?}", self.0.len());
        println!("{rounds} {what} agree");
    }
}

pub fn hexadecimal(job: &[u8]) -> String {
    job.iter().map(|byte| format!("{byte:02x}")).collect()
}
