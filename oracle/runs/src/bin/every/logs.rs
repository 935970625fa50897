//! All short logs.

use std::collections::BTreeMap;

use runs::{
    lines::{Event, Id, Vector},
    model::{at_or_above, covers},
    text::{event_words, up_to, without_final_zeros},
};

/// The note by this id and version; its other numbers follow from these, so that a note is the same in every log.
fn note(id: Id, version: Vector) -> Event {
    Event {
        lamport: version.iter().sum(),
        payload: 100 * id.replica + 10 * id.sequence + id.disambiguator.map_or(0, |d| u64::from(d) + 1),
        revision: (10 * id.replica + id.sequence) as u32,
        id,
        version,
    }
}

/// The lines by which a log takes the notes: with all desks from the start, or each desk raised when a note first speaks of it, and vectors
/// without final zeros.
pub fn taken<'a>(log: &str, replicas: usize, notes: impl Iterator<Item = &'a Event>, raised: bool) -> Vec<String> {
    let mut desks = if raised { 1 } else { replicas };
    let mut lines = vec![format!("{log}.new {desks}")];
    let mut raise = |to: usize, lines: &mut Vec<String>| {
        lines.extend((to > desks).then(|| format!("{log}.raise {to}")));
        desks = desks.max(to);
    };
    for mut note in notes.cloned() {
        if raised {
            note.version = without_final_zeros(&note.version).to_vec();
        }
        raise(note.version.len(), &mut lines);
        lines.push(format!("{log}.append {}", event_words(&note)));
    }
    raise(replicas, &mut lines);
    lines
}

/// The highest sequence of each desk.
pub fn tops(replicas: usize, log: &[Event]) -> Vector {
    let of = |desk: usize| {
        log.iter()
            .filter(|e| e.id.replica == desk as u64)
            .map(|e| e.id.sequence)
            .max()
    };
    (0..replicas).map(|desk| of(desk).unwrap_or(0)).collect()
}

/// The notes that may come next.
fn next(replicas: usize, log: &[Event], siblings: bool) -> Vec<Event> {
    let tops = tops(replicas, log);
    let closed = |v: &Vector| log.iter().all(|e| !covers(v, &e.id) || at_or_above(v, &e.version));
    let mut found = Vec::new();
    for desk in 0..replicas {
        for mut heard in up_to(&tops).into_iter().filter(|v| v[desk] == tops[desk] && closed(v)) {
            heard[desk] += 1;
            let id = Id {
                replica: desk as u64,
                sequence: heard[desk],
                disambiguator: None,
            };
            found.push(note(id, heard));
        }
    }
    found.extend(log.last().filter(|_| siblings).map(sibling));
    found
}

/// The next sibling of the note.
pub fn sibling(elder: &Event) -> Event {
    let disambiguator = Some(elder.id.disambiguator.map_or(0, |d| d + 1));
    let id = Id {
        disambiguator,
        ..elder.id
    };
    note(id, elder.version.clone())
}

/// Every log of up to so many notes, the empty one included.
pub fn each(replicas: usize, notes: usize, siblings: bool, visit: &mut impl FnMut(&[Event])) {
    fn go(replicas: usize, left: usize, siblings: bool, log: &mut Vec<Event>, visit: &mut impl FnMut(&[Event])) {
        visit(log);
        if left == 0 {
            return;
        }
        for event in next(replicas, log, siblings) {
            log.push(event);
            go(replicas, left - 1, siblings, log, visit);
            log.pop();
        }
    }
    go(replicas, notes, siblings, &mut Vec::new(), visit);
}

/// Every set of notes that is a log, in the first order in which it is one.
pub fn sets(replicas: usize, notes: usize, siblings: bool) -> Vec<Vec<Event>> {
    let mut found = BTreeMap::new();
    each(replicas, notes, siblings, &mut |log| {
        let mut key: Vec<(Id, Vector)> = log.iter().map(|e| (e.id, e.version.clone())).collect();
        key.sort();
        found.entry(key).or_insert_with(|| log.to_vec());
    });
    found.into_values().collect()
}

/// Every order of the notes that keeps each desk's own.
pub fn orders(set: &[Event]) -> Vec<Vec<Event>> {
    if set.is_empty() {
        return vec![vec![]];
    }
    let first_of_its_desk = |i: usize| {
        let Id { replica, .. } = set[i].id;
        set.iter().all(|e| e.id.replica != replica || e.id >= set[i].id)
    };
    let mut found = Vec::new();
    for i in (0..set.len()).filter(|&i| first_of_its_desk(i)) {
        let rest: Vec<Event> = [&set[..i], &set[i + 1..]].concat();
        found.extend(
            orders(&rest)
                .into_iter()
                .map(|order| [&[set[i].clone()], &order[..]].concat()),
        );
    }
    found
}

/// Some note comes before one of its past, or a sibling not right after its elder.
pub fn early(order: &[Event]) -> bool {
    let same_note = |i: usize, j: usize| {
        let (a, b) = (&order[i].id, &order[j].id);
        a.replica == b.replica && a.sequence == b.sequence
    };
    (0..order.len()).any(|j| {
        (0..j).any(|i| covers(&order[i].version, &order[j].id) && !same_note(i, j))
            || order[j].id.disambiguator.is_some() && (j == 0 || !same_note(j - 1, j))
    })
}
