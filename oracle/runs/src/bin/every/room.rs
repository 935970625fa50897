//! The notes of a short log in every order of arrival at the waiting room.

use runs::{answer::Answer, lines::Event, model::Probe, text::event_words};

/// Every order of the notes.
fn permutations(notes: &[Event]) -> Vec<Vec<Event>> {
    if notes.is_empty() {
        return vec![vec![]];
    }
    let mut found = Vec::new();
    for i in 0..notes.len() {
        let rest = [&notes[..i], &notes[i + 1..]].concat();
        let orders = permutations(&rest).into_iter();
        found.extend(orders.map(|order| [&notes[i..=i], &order[..]].concat()));
    }
    found
}

/// One order: what the room handed over, by the model.
fn bring(replicas: usize, order: &[Event], lines: &mut Vec<String>) -> Vec<u64> {
    let mut probe = Probe::default();
    let mut numbers = Vec::new();
    let made = std::iter::once(format!("h.new {replicas}"));
    for line in made.chain(order.iter().map(|note| format!("r.arrive {}", event_words(note)))) {
        if let Answer::Report(report) = probe.answer(line.as_bytes()) {
            numbers.extend(report.iter().map(|(_, number)| number));
        }
        lines.push(line);
    }
    assert!(probe.waiting_room.waiting.is_empty(), "a note of the set still waits");
    lines.extend(["r.waiting", "h.iter"].map(str::to_string));
    numbers
}

/// Each note has an order in which it is ready at its turn, so that all are handed over, whatever the order is; and but for younger siblings
/// all are accepted.
pub fn ask(replicas: usize, set: &[Event], lines: &mut Vec<String>) {
    let siblings = set.iter().filter(|note| note.id.disambiguator.is_some()).count();
    for order in permutations(set) {
        let numbers = bring(replicas, &order, lines);
        let accepted = numbers.iter().filter(|&&number| number == 0).count();
        assert!(accepted == set.len() - siblings, "a note of the set is not accepted");
    }
}
