//! Statistics in words, a line for each subject.

use std::fmt;

use super::Statistics;
use crate::model::results;

impl fmt::Display for Statistics {
    fn fmt(&self, f: &mut fmt::Formatter) -> fmt::Result {
        let counts = |items: &[(String, usize)]| {
            let items = items.iter().map(|(name, count)| format!("{name}: {count}"));
            items.collect::<Vec<_>>().join(", ")
        };
        let taken = self.results.iter();
        let taken = taken.filter(|(&result, _)| results::taken(result));
        let taken: usize = taken.map(|(_, count)| count).sum();
        let files: usize = self.files.values().sum();
        let steps = self.steps();
        let share = 100.0 * taken as f64 / steps.max(1) as f64;
        let accepted = self.files.get(&0).copied().unwrap_or(0);
        writeln!(f, "files {files}, accepted {accepted}")?;
        writeln!(f, "steps {steps}, taken {taken} ({share:.1} %)")?;
        let kinds: Vec<_> = self.kinds.clone().into_iter().collect();
        writeln!(f, "kinds  {}", counts(&kinds))?;
        let largest = self.largest.named();
        let largest = largest.map(|(name, number)| (name.to_string(), number));
        write!(f, "largest  {}", counts(&largest))?;
        for needed in self.needed() {
            write!(f, "\n{}  {}", needed.subject, counts(&needed.items))?;
        }
        Ok(())
    }
}
