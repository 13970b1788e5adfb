//! Instructions, as `bench/run` has had them counted.

use std::collections::HashMap;

/// Instructions for one access, by pattern and version.
pub type Counts = HashMap<(String, String), f64>;

/// Lines of a pattern, a version, and the program's instructions with so many accesses and with twice as many.
pub fn counts(text: &str, accesses: usize) -> Result<Counts, String> {
    let count = |line: &str| {
        let words: Vec<_> = line.split_whitespace().collect();
        let [pattern, version, once, twice] = words[..] else { return None };
        let [once, twice]: [f64; 2] = [once.parse().ok()?, twice.parse().ok()?];
        Some(((pattern.into(), version.into()), (twice - once) / accesses as f64))
    };
    text.lines().map(|line| count(line).ok_or(format!("no count of instructions: {line}"))).collect()
}

/// Those of a version, as a table has them.
pub fn told(counts: &Counts, pattern: &str, version: &str) -> String {
    counts.get(&(pattern.into(), version.into())).map_or("-".into(), |count| format!("{count:.1}"))
}
