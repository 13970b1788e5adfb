//! What the options' words are.

pub fn number(word: &str) -> Result<usize, String> {
    word.parse().ok().filter(|&number| number > 0).ok_or(format!("'{word}' is no number above 0"))
}

pub fn read(file: &str) -> Result<String, String> {
    std::fs::read_to_string(file).map_err(|error| format!("cannot read {file}: {error}"))
}

pub fn named<T: Copy>(all: &[(&str, T)], word: &str) -> Result<T, String> {
    all.iter().find(|(name, _)| *name == word).map(|(_, of)| *of).ok_or(format!("there is no '{word}'"))
}

pub fn once_or_twice(word: &str) -> Result<usize, String> {
    named(&[("once", 1), ("twice", 2)], word)
}
