//! How often each call gave each number, so that a test can say what it covered.

use std::collections::BTreeMap;
use std::io::Write;

/// Counts by call and number.
#[derive(Clone, Debug, Default)]
pub struct Tally(BTreeMap<&'static str, BTreeMap<u32, u64>>);

impl Tally {
    /// Counts one answer of a call.
    pub fn add(&mut self, call: &'static str, number: u32) {
        *self.0.entry(call).or_default().entry(number).or_default() += 1;
    }

    /// How often a call gave a number.
    pub fn count(&self, call: &str, number: u32) -> u64 {
        let counts = self.0.get(call);
        counts.and_then(|c| c.get(&number)).copied().unwrap_or(0)
    }

    /// How many answers there were.
    pub fn total(&self) -> u64 {
        self.0.values().flat_map(BTreeMap::values).sum()
    }

    /// Fails unless a call gave each of these numbers so often, and no other one.
    pub fn expect(&self, call: &str, numbers: &[u32], at_least: u64) {
        for &number in numbers {
            let count = self.count(call, number);
            assert!(
                count >= at_least,
                "{call} gave {number} {count} times, wanted {at_least}: {self:?}"
            );
        }
        let seen = self.0.get(call).into_iter().flat_map(BTreeMap::keys);
        for number in seen {
            assert!(numbers.contains(number), "{call} gave {number}: {self:?}");
        }
    }

    /// Prints the counts, past the test harness's capture.
    pub fn print(&self, title: &str) {
        let mut text = format!("{title}: {} answers\n", self.total());
        for (call, counts) in &self.0 {
            let counts: Vec<String> = counts.iter().map(|(n, c)| format!("{n}:{c}")).collect();
            text += &format!("  {call:<14} {}\n", counts.join(" "));
        }
        // A closed standard output is no fault of the calls.
        let _ = std::io::stdout().write_all(text.as_bytes());
    }
}
