//! Counts of what has names. A run has to meet every one of them.

use super::Line;

pub struct Tally {
    counted: Vec<(String, u64)>,
}

impl Tally {
    /// Nothing counted yet, under these names.
    pub fn new(names: impl Iterator<Item = String>) -> Self {
        Tally {
            counted: names.map(|name| (name, 0)).collect(),
        }
    }

    /// Counts what is met, in the order of the names.
    pub fn count(&mut self, met: impl IntoIterator<Item = bool>) {
        for ((_, count), is_met) in self.counted.iter_mut().zip(met) {
            *count += u64::from(is_met);
        }
    }

    pub fn lines(&self) -> impl Iterator<Item = Line> + '_ {
        let line = |(name, count): &(String, u64)| Line::needed(name.clone(), *count);
        self.counted.iter().map(line)
    }
}
