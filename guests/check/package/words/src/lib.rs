//! A crate that knows nothing of friday.
use std::collections::BTreeMap;

/// How often each word is in a text, and the mean length of its words.
pub fn count(text: &str) -> (BTreeMap<String, usize>, f64) {
    let mut counts = BTreeMap::new();
    for word in text.split_whitespace() {
        *counts.entry(word.to_lowercase()).or_insert(0) += 1;
    }
    let letters: usize = text.split_whitespace().map(str::len).sum();
    (counts, letters as f64 / text.split_whitespace().count() as f64)
}
