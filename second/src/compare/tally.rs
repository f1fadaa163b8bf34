//! Counts of what was compared, and the printing of differences.

use crate::listing::Ending;
use std::collections::BTreeMap;

/// Both answers to one question that they answered differently.
#[derive(Clone, Debug)]
pub struct Difference {
    pub question: String,
    pub ours: String,
    pub theirs: String,
}

#[derive(Default)]
pub struct Tally {
    pub passed: u64,
    pub failed: u64,
    counts: BTreeMap<String, u64>,
}

impl Tally {
    pub fn count(&mut self, what: impl Into<String>) {
        *self.counts.entry(what.into()).or_insert(0) += 1;
    }

    pub fn counted(&self, what: &str) -> u64 {
        self.counts.get(what).copied().unwrap_or(0)
    }

    pub fn count_ending(&mut self, ending: Ending) {
        match ending {
            Ending::Done => self.count("listing: done"),
            Ending::Stop(number) => self.count(format!("listing: stop {number:2}")),
            Ending::Bad(number) => self.count(format!("listing: bad {number:2}")),
        }
    }

    /// A difference with the smallest text that shows it.
    pub fn report(&mut self, text: &[u8], difference: &Difference) {
        self.failed += 1;
        println!("DIFFERENCE {}", difference.question);
        println!("text ({} bytes):", text.len());
        println!("{}", shortened(&text.escape_ascii().to_string().replace("\\n", "\\n\n"), 3000));
        println!("second program:\n{}", shortened(&difference.ours, 1500));
        println!("proved program:\n{}", shortened(&difference.theirs, 1500));
    }

    /// The counts, and on the last line what passed and what failed. True where nothing failed.
    pub fn finish(&self) -> bool {
        for (what, count) in &self.counts {
            println!("{count:9}  {what}");
        }
        println!("{} passed, {} failed", self.passed, self.failed);
        self.failed == 0
    }
}

fn shortened(long: &str, most: usize) -> String {
    if long.chars().count() <= most {
        return long.to_string();
    }
    let kept: String = long.chars().take(most).collect();
    format!("{kept} ... ({} characters)", long.chars().count())
}
