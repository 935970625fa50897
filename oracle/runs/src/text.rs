//! From values to the text of a line, and files.

use crate::lines::{Event, Id};

pub fn spaced(numbers: &[u64]) -> String {
    numbers.iter().map(u64::to_string).collect::<Vec<_>>().join(" ")
}

/// The vector without its final zeros, but with one entry at least.
pub fn without_final_zeros(vector: &[u64]) -> &[u64] {
    let last = vector.iter().rposition(|&entry| entry > 0).unwrap_or(0);
    &vector[..=last]
}

pub fn id_words(id: &Id) -> String {
    match id.disambiguator {
        Some(d) => format!("{} {} {}", id.replica, id.sequence, d),
        None => format!("{} {} -", id.replica, id.sequence),
    }
}

/// What follows the word of an append.
pub fn event_words(event: &Event) -> String {
    let Event {
        id,
        lamport,
        payload,
        revision,
        version,
    } = event;
    format!("{} {lamport} {payload} {revision} {}", id_words(id), spaced(version))
}

/// A word with numbers after it; where there are none, the bare word.
pub fn numbers_line(word: &str, numbers: &[u64]) -> String {
    if numbers.is_empty() {
        word.to_string()
    } else {
        format!("{word} {}", spaced(numbers))
    }
}

/// All vectors at or below the tops, entry by entry, the last entry moving first.
pub fn up_to(tops: &[u64]) -> Vec<Vec<u64>> {
    let mut all = vec![vec![]];
    for &top in tops {
        all = all
            .into_iter()
            .flat_map(|v| (0..=top).map(move |entry| [&v[..], &[entry]].concat()))
            .collect();
    }
    all
}

/// The bytes of a file; without them the program ends.
pub fn read(path: &str) -> Vec<u8> {
    std::fs::read(path).unwrap_or_else(|error| {
        eprintln!("{path}: {error}");
        std::process::exit(2)
    })
}
