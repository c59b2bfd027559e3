//! What a random comparison was made of: shares under names, printed, and required.

use std::collections::BTreeMap;

/// Counts the shares of a run. A share that falls short of what was required of it fails the run: a comparison that
/// never meets the hard cases says nothing.
#[derive(Debug, Clone)]
pub struct Mix {
    name: &'static str,
    cases: u64,
    shares: BTreeMap<&'static str, u64>,
    required: BTreeMap<&'static str, f64>,
}

impl Mix {
    pub fn new(name: &'static str) -> Self {
        Self { name, cases: 0, shares: BTreeMap::new(), required: BTreeMap::new() }
    }

    /// At least so many percent of the cases.
    pub fn require(mut self, share: &'static str, percent: f64) -> Self {
        self.required.insert(share, percent);
        self.shares.insert(share, 0);
        self
    }

    pub fn case(&mut self) {
        self.cases += 1;
    }

    /// Counts the case at hand to a share, where it belongs there.
    pub fn count(&mut self, share: &'static str, belongs: bool) {
        *self.shares.entry(share).or_insert(0) += u64::from(belongs);
    }

    pub fn percent(&self, share: &str) -> f64 {
        let count = self.shares.get(share).copied().unwrap_or(0);
        100.0 * count as f64 / self.cases.max(1) as f64
    }

    pub fn cases(&self) -> u64 {
        self.cases
    }

    /// One line a share, with what was required of it.
    pub fn report(&self) -> String {
        let mut text = format!("{}: {} cases\n", self.name, self.cases);
        for (share, count) in &self.shares {
            let required = self.required.get(share);
            let required = required.map_or(String::new(), |least| format!(" (at least {least} %)"));
            let percent = self.percent(share);
            text += &format!("  {share}: {count}, {percent:.1} %{required}\n");
        }
        text
    }

    /// The shares that fall short, or all of them where there was no case.
    pub fn missing(&self) -> Vec<&'static str> {
        let short = |(share, least): &(&&'static str, &f64)| self.cases == 0 || self.percent(share) < **least;
        self.required.iter().filter(short).map(|(share, _)| *share).collect()
    }

    /// Prints the report; fails where a share falls short.
    pub fn finish(self) {
        print!("{}", self.report());
        let missing = self.missing();
        assert!(missing.is_empty(), "{}: too few of {missing:?}", self.name);
    }
}
