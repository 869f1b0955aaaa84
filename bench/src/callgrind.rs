//! A file of counts that callgrind wrote, with its names uncompressed.

use crate::cases::Cost;
use std::collections::HashMap;

#[derive(Default)]
pub struct Counts {
    /// A function's own instructions.
    own: HashMap<String, u64>,
    /// The instructions of a function and of what it called. How often it was called is not taken from here: callgrind counts calls that were
    /// made before it began to count instructions.
    whole: HashMap<String, u64>,
}

fn cost_of(line: &str) -> u64 {
    let cost = line.split_whitespace().nth(1);
    cost.and_then(|text| text.parse().ok()).unwrap_or(0)
}

impl Counts {
    pub fn read(path: &str) -> Result<Counts, String> {
        let text = std::fs::read_to_string(path).map_err(|error| format!("{}: {}", path, error))?;
        let mut counts = Counts::default();
        let (mut function, mut callee) = (String::new(), String::new());
        let mut lines = text.lines();
        while let Some(line) = lines.next() {
            if let Some(name) = line.strip_prefix("fn=") {
                function = name.to_string();
            } else if let Some(name) = line.strip_prefix("cfn=") {
                callee = name.to_string();
            } else if line.starts_with("calls=") {
                *counts.whole.entry(callee.clone()).or_default() += lines.next().map_or(0, cost_of);
            } else if line.starts_with(|first: char| first.is_ascii_digit()) {
                *counts.own.entry(function.clone()).or_default() += cost_of(line);
            }
        }
        Ok(counts)
    }

    fn whole(&self, symbol: &str) -> Result<u64, String> {
        let cost = self.whole.get(symbol).copied().filter(|cost| *cost > 0);
        cost.ok_or(format!("{} was not called, or stands inside its caller", symbol))
    }

    /// The instructions of all calls.
    pub fn cost(&self, cost: &Cost) -> Result<u64, String> {
        match *cost {
            Cost::Call(symbol) => self.whole(symbol),
            Cost::Inner(symbol, outer, part) => match self.whole(symbol) {
                Err(_) => Ok(self.whole(outer)? - self.whole(part)?),
                found => found,
            },
            Cost::ToPanic(symbol) => {
                let counted = |name: &String| name == symbol || name.contains("hal_v4x7");
                Ok(self
                    .own
                    .iter()
                    .filter(|(name, _)| counted(name))
                    .map(|(_, cost)| cost)
                    .sum())
            }
        }
    }
}
