//! How often each function gave each answer.

use std::collections::BTreeMap;

#[derive(Default)]
pub struct Tally {
    counts: BTreeMap<(String, String), u64>,
    pub calls: u64,
}

impl Tally {
    pub fn count(&mut self, function: &str, answer: &str) {
        self.note(function, answer);
        self.calls += 1;
    }

    /// Something that was met, and is no call.
    pub fn note(&mut self, what: &str, met: &str) {
        let key = (what.to_string(), met.to_string());
        *self.counts.entry(key).or_insert(0) += 1;
    }

    fn of(&self, function: &str, answer: &str) -> u64 {
        let key = (function.to_string(), answer.to_string());
        *self.counts.get(&key).unwrap_or(&0)
    }

    /// Prints a line for each function, and returns an error if a wanted answer was given less often than this.
    pub fn require(&self, wanted: &[(&str, &[&str])], least: u64) -> Result<(), String> {
        let mut missing = Vec::new();
        for (function, answers) in wanted {
            let mut line = format!("  {function}:");
            for answer in *answers {
                let met = self.of(function, answer);
                line.push_str(&format!(" {answer} {met}"));
                if met < least {
                    missing.push(format!("{function}: {answer} was met {met} times"));
                }
            }
            println!("{line}");
        }
        if missing.is_empty() {
            Ok(())
        } else {
            Err(missing.join("; "))
        }
    }
}
